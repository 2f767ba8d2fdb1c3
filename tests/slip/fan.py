"""Plain text of a job that meets refusal 17 in fieldslip's buffers: 62 triangles round a vertex, and 32 points that lie on it with different bits, each entered in every triangle."""
import math

TRIANGLES = 62
print("vertex 0 0 0 0")
for k in range(TRIANGLES):
    angle = 2 * math.pi * k / TRIANGLES
    print("vertex", round(100 * math.cos(angle), 9), round(100 * math.sin(angle), 9), 0, 0)
for k in range(TRIANGLES):
    print("triangle", 0, 1 + k, 1 + (k + 1) % TRIANGLES)
for k in range(32):
    print("point", 0, k * 1e-12, 0, 0)
print("limit", 0)
