"""The options of the tests, and a summary by class."""
import collections
import json
import sys
from pathlib import Path

import pytest

SUITE = Path(__file__).resolve().parent.parent
sys.path.insert(0, str(SUITE / 'command'))

import judge  # noqa: E402

CASES = judge.cases_of(SUITE)
FOUND, RESULTS = collections.defaultdict(list), []


def pytest_addoption(parser):
    parser.addoption('--cmyk-as-rgb', action='store_true', help='RGB for four components')
    parser.addoption('--results', type=Path, help='a file for a line of JSON of each case')
    parser.addoption('--without', action='append', default=[], help='a process that is lacking')


def pytest_generate_tests(metafunc):
    name = metafunc.function.__name__.removeprefix('test_')
    cases = [case for case in CASES if case['class'] == name]
    metafunc.parametrize('case', cases, ids=[case['name'] for case in cases])


@pytest.fixture(scope='session')
def judged(request):
    """Says what is to be said of an answer, and keeps it for the summary."""
    suite = judge.Judge(SUITE, request.config.getoption('--cmyk-as-rgb'))

    def outcome(case, shown):
        found = suite.outcome(case, shown)
        FOUND[case['class']].append(found)
        RESULTS.append({'name': case['name'], **found._asdict()})
        return found

    return outcome


@pytest.fixture
def stream(case, request):
    """The path of a case's stream."""
    if case['process'] in request.config.getoption('--without'):
        pytest.skip('a process that the decoder lacks')
    if case['class'] == 'own' and case['settings']:
        pytest.skip('a setting of another decoder')
    return SUITE / case['stream']


def pytest_sessionfinish(session):
    path = session.config.getoption('--results')
    if path:
        path.write_text(''.join(json.dumps(result) + '\n' for result in RESULTS), encoding='utf-8')


def pytest_terminal_summary(terminalreporter):
    for name, found in FOUND.items():
        counts = collections.Counter(('' if it.is_right else 'wrongly ') + it.how for it in found)
        near = max((it.distance for it in found if it.is_right and it.how == 'near'), default=0)
        words = ', '.join('%d %s' % (count, how) for how, count in sorted(counts.items()))
        terminalreporter.write_line('%s: %s; near is within %d' % (name, words, near))
