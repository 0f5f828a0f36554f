"""Runs pytest with the plugin: `-p pytest_zaxbriar`. At the end it says how many pictures zaxbriar
has decoded."""

import zaxbriar_pillow


def pytest_terminal_summary(terminalreporter):
    terminalreporter.write_line(
        f"zaxbriar decoded {zaxbriar_pillow.decoded} pictures,"
        f" {zaxbriar_pillow.decoded_in_place} in place"
    )
