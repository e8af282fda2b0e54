"""Files for ParaView and CAD, read back."""
from vtkmodules.util.numpy_support import vtk_to_numpy
from vtkmodules.vtkIOXML import vtkXMLUnstructuredGridReader

from mines import SIZE

BLOCK = SIZE[0] * SIZE[1] * SIZE[2]


def read_vtu(path):
    reader = vtkXMLUnstructuredGridReader()
    reader.SetFileName(str(path))
    reader.Update()
    grid = reader.GetOutput()
    cells = grid.GetCellData()
    return grid, {
        cells.GetArrayName(n): vtk_to_numpy(cells.GetArray(n))
        for n in range(cells.GetNumberOfArrays())
    }
