"""Grades and tonnes at cut-offs, of each rock."""
import pytest

from mines import costs, model_of, table


@pytest.fixture(scope="module")
def frame():
    return table(5, 4, 4, 6)


@pytest.fixture(scope="module")
def model(frame):
    return model_of(frame)


def test_the_grade_tonnage_of_each_rock(frame, model):
    from pitplan.model.grade_tonnage import by_rock

    economics = costs()
    lines = by_rock(
        model, economics.priced(model), {"copper": {"grade_unit": "%", "price_unit": "t"}}
    ).set_index("rock")
    heaviest_first = frame.groupby("ROCK").TONNES.sum().sort_values(ascending=False)
    assert lines.index.tolist() == [*heaviest_first.index, "all"]
    revenue = frame.TONNES * frame.CU / 100 * 0.85 * 8500
    ore = revenue > frame.TONNES * frame.ROCK.map({"OXI": 7.5, "SUL": 9.0})
    for rock, here in (
        ("OXI", frame.ROCK == "OXI"),
        ("SUL", frame.ROCK == "SUL"),
        ("all", frame.ROCK != ""),
    ):
        t = frame.TONNES[here & ore]
        assert lines.blocks[rock] == here.sum()
        assert lines.Mt[rock] == pytest.approx(frame.TONNES[here].sum() / 1e6)
        assert lines["ore Mt"][rock] == pytest.approx(t.sum() / 1e6)
        assert lines["copper %"][rock] == pytest.approx((t * frame.CU[here & ore]).sum() / t.sum())
        assert lines["copper t"][rock] == pytest.approx(
            (t * frame.CU[here & ore]).sum() * 0.01 * 0.85
        )
    assert (~ore & (frame.CU > 0)).any()  # there is metal that isn't worth treating
