"""Views from anywhere in a model, where it has no cameras."""
import math

import numpy

from culling import views

AROUND, WITHIN, HEIGHT = 8, 192, math.radians(60)
# Steps of a sequence that fills a cube evenly, and how high eyes are, as a part of the model's height: mostly low.
STEPS, HIGHEST = (0.8191725134, 0.6710436067, 0.5497004779), 0.5


def eyes_anywhere(soup):
    """Views from around the model, and from places all over it, level and in all directions."""
    low, high = soup.points.min(axis=0), soup.points.max(axis=0)
    found = views.around((tuple(low), tuple(high)), AROUND, HEIGHT, 16 / 9)
    for number in range(WITHIN):
        x, y, z = ((0.5 + step * (number + 1)) % 1.0 for step in STEPS)
        eye = low + (high - low) * numpy.array([x, HIGHEST * y * y, z])
        turn = 2.399963 * number
        at = eye + numpy.array([math.cos(turn), 0.0, math.sin(turn)])
        found.append(views.looking(f"within {number}", tuple(eye.tolist()), tuple(at.tolist()), HEIGHT))
    return found
