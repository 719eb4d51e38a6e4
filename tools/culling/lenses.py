"""What the model's cameras say of a scene's screen and near distance, where nothing else is asked for.

What lies between the scene's near plane and the renderer's own is drawn as an occluder, though the renderer cuts it
away: it would hide what is seen. So the scene's near distance must be no less than the renderer's; a greater one only
finds less. A screen that is wider than the camera's is safe as well; on a narrower one what is seen at its sides is
called outside."""
import math

from .document import ModelError

SIZE, MOST_SIDE, STEPS = (640, 360), 2048, (8, 4)
# The near distance, where nothing says one: this part of the model's diagonal.
NEAR_PART = 1000


def own_eyes(model, asked):
    """The model's cameras where the frames are theirs, or none."""
    if asked.path is not None or asked.orbit is not None:
        return []
    if model.has_flat_eyes and not model.eyes:
        raise ModelError("The model's cameras are orthographic, and in such a view nothing is culled: take --orbit or"
                         " --path.")
    return model.eyes


def screen(eyes, asked):
    """The size of the screen, and a note on cameras that are made for another."""
    size = asked.size or (size_of(eyes[0].ratio) if eyes and eyes[0].ratio else SIZE)
    others = [eye for eye in eyes if eye.ratio and abs(size[0] / eye.ratio - size[1]) >= STEPS[1]]
    if not others:
        return size, []
    count = "that of one camera" if len(others) == 1 else f"that of {len(others)} cameras"
    return size, [f"screen: {size[0]} by {size[1]}, whose ratio of {size[0] / size[1]:.3g} isn't {count}, as of"
                  f" {others[0].name} with {others[0].ratio:.3g}: what a wider camera sees at its sides is called"
                  " outside"]


def size_of(ratio):
    """The screen of a ratio: 640 wide where its height then fits, and if need be a little wider than the ratio."""
    (across, down), width = STEPS, SIZE[0]
    # a ratio is stored rounded, and a hundredth of a pixel isn't worth a row of pixels
    height = max(down, int(width / ratio + 0.01) // down * down)
    if height <= MOST_SIDE:
        return width, height
    return max(across, math.ceil((MOST_SIDE * ratio - 0.01) / across) * across), MOST_SIDE


def near_distance(eyes, asked, diagonal):
    """The near distance in metres, whether a greater one may take its place, and notes."""
    most = max((eye.near for eye in eyes), default=0.0)
    if asked.near:
        return asked.near, False, [] if asked.near >= most > 0 else [renderers_own()]
    if not eyes:
        return diagonal / NEAR_PART or 1.0, False, [renderers_own()]
    least = min(eye.near for eye in eyes)
    differ = f"near distance: {most:.6g} metres, the greatest znear of the cameras; the least is {least:.6g}"
    return most, True, [differ] if least < most else []


def renderers_own():
    return ("near distance: the renderer's own must be no greater than the scene's, or what the renderer cuts away"
            " hides what it shows")


def raised(asked_near, near):
    """A note on a near distance that had to be greater."""
    return f"near distance: {near:.6g} metres, since at the cameras' {asked_near:.6g} the model doesn't fit a scene"
