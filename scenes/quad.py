import struct, sys
vertices = [(-2, 2, 2), (2, 2, 2), (2, -2, 2), (-2, -2, 2)]
triangles = [(0, 1, 2), (0, 2, 3)]
rectangle = (0, 0, 0, 32, 8, 3, 0)
camera = (65536, 0, 0, 0, 0, 65536, 0, 0, 0, 0, 65536, 0)
out = struct.pack("<4s4H2BH4I", b"MSOC", 1, 32, 8, 1, 0, 0, 1, len(vertices), len(triangles), 0, 1)
out += b"".join(struct.pack("<3i", *vertex) for vertex in vertices)
out += b"".join(struct.pack("<3I", *triangle) for triangle in triangles)
out += struct.pack("<B6i", *rectangle) + struct.pack("<12i", *camera)
sys.stdout.buffer.write(out)
