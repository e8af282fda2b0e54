"""Polygons for GIS, read back by fiona and held against the planner's own table."""
from decimal import Decimal

import ezdxf
import fiona
import numpy as np
import pytest
from shapely.geometry import Point, shape

import pitplan as pp
from files_back import BLOCK
from mines import SIZE, study_of, table
from pitplan.views.export import dxf as export_dxf, gpkg as export_gpkg


def test_geopackage_polygons(tmp_path, turned):
    shells, f = turned
    count = export_gpkg.write(shells, tmp_path / "x.gpkg", crs="EPSG:32719")
    assert set(fiona.listlayers(tmp_path / "x.gpkg")) == {"benches", "rims"}
    revenue = np.rint(f.TONNES * f.CU * 0.01 * 0.85 * 8500)
    treating = np.rint(f.TONNES * f.ROCK.map({"OXI": 7.5, "SUL": 9.0}))
    ore = revenue > treating
    at_full_price = (revenue - treating).clip(lower=0) - np.rint(f.TONNES * 2.0)
    with fiona.open(tmp_path / "x.gpkg", layer="benches") as layer:
        assert layer.crs["init"] == "epsg:32719"
        assert layer.schema["geometry"] == "MultiPolygon"
        benches = [(dict(row["properties"]), shape(row["geometry"])) for row in layer]
    for i, factor in enumerate(shells.factors):
        inside = f[shells.holds(i)]
        mine = [(found, polygon) for found, polygon in benches if found["factor"] == factor / 1000]
        assert len(mine) == inside.ZC.nunique()
        assert sum(found["volume"] for found, _ in mine) == pytest.approx(len(inside) * BLOCK)
        for found, polygon in mine:
            here = inside[np.isclose(inside.ZC, (found["toe"] + found["crest"]) / 2)]
            assert polygon.is_valid
            assert (
                polygon.area
                == pytest.approx(found["area"])
                == pytest.approx(len(here) * SIZE[0] * SIZE[1])
            )
            assert found["blocks"] == len(here)
            assert all(polygon.contains(Point(x, y)) for x, y in zip(here.XC, here.YC))
            assert found["rock_t"] == pytest.approx(here.TONNES.sum())
            assert found["ore_t"] == pytest.approx(here.TONNES[ore].sum())
    with fiona.open(tmp_path / "x.gpkg", layer="rims") as layer:
        rims = [(dict(row["properties"]), shape(row["geometry"])) for row in layer]
    assert len(rims) == len(shells.factors)
    assert count == len(benches) + len(rims)
    for i, (found, polygon) in enumerate(rims):
        inside = f[shells.holds(i)]
        columns = len(inside[["XC", "YC"]].round(3).drop_duplicates())
        assert polygon.area == pytest.approx(columns * SIZE[0] * SIZE[1])
        assert found["blocks"] == len(inside)
        assert type(found["worth"]) is float  # that a GIS can add up and colour by
        assert f"{found['worth_at_factor']:.2f}" == f"{Decimal(shells.verdicts[i]['worth']):.2f}"
        assert found["worth"] == at_full_price[shells.holds(i)].sum()


def test_geopackage_without_a_system_and_of_an_empty_pit(tmp_path):
    shells = study_of(tmp_path, table(4, 4, 3, 1)).shells([0])
    assert not shells.holds(0).any()
    assert export_gpkg.write(shells, tmp_path / "x.gpkg") == 0
    with fiona.open(tmp_path / "x.gpkg", layer="benches") as layer:
        assert len(layer) == 0
        assert layer.crs.wkt.startswith('LOCAL_CS["Undefined Cartesian SRS"')  # and not degrees
    for crs, said in (("EPSG:1", "no coordinate system"), ("EPSG:4326", "in degrees")):
        with pytest.raises(pp.PlanError, match=said):
            export_gpkg.write(shells, tmp_path / "y.gpkg", crs=crs)
    assert export_dxf.write(shells, tmp_path / "x.dxf") == 0
    assert not ezdxf.readfile(tmp_path / "x.dxf").audit().has_errors
