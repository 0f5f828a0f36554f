"""Each case of the suite as a test of Pillow."""
from judge import Picture, samples_of
from PIL import Image

DEPTHS = {'L': 1, 'RGB': 3, 'CMYK': 4}


def decode(path):
    """The picture of a file, or None for a refusal."""
    try:
        with Image.open(path, formats=['JPEG']) as image:
            image.load()
            if image.mode.startswith('I;16'):
                is_high_first = image.mode.endswith('B')
                samples = samples_of(image.tobytes(), True, is_high_first)
                return Picture(*image.size, 1, 65535, samples)
            return Picture(*image.size, DEPTHS[image.mode], 255, list(image.tobytes()))
    except (OSError, SyntaxError, ValueError):
        return None


def test_must(case, stream, judged):
    found = judged(case, decode(stream))
    assert found.is_right, '%s: %s' % (case['section'], case['why'])


def test_may(case, stream, judged):
    found = judged(case, decode(stream))
    assert found.is_right, '%s: %s' % (case['section'], case['why'])


def test_own(case, stream, judged):
    judged(case, decode(stream))
