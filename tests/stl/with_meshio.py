# meshio turns an STL file into a binary one, or names the three points of each triangle. Usage: with_meshio.py write FROM TO | with_meshio.py points FILE
import sys
import meshio

mesh = meshio.read(sys.argv[2], file_format='stl')
if sys.argv[1] == 'write':
    meshio.write(sys.argv[3], mesh, file_format='stl', binary=True)
else:
    for triangle in mesh.cells_dict['triangle']:
        for point in mesh.points[triangle]:
            print('vertex', *(float(x) for x in point))
