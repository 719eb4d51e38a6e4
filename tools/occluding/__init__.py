"""Occluders made from a model: of triangles that lie within the surface of what it draws.

Wants numpy, scipy and shapely, as `tools/occluders` says; `culling` wants none of these."""
