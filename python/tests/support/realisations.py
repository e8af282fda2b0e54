"""Studies with realisations of the grades, for the tests."""
from pathlib import Path

import numpy as np

from mines import costs, study_of, table
from pitplan.plans import risk
from pitplan.tasks.tasks import Tasks

FACTORS = (800, 1000)


def grades_of(frame, count, seed=1):
    r = np.random.default_rng(seed)
    return np.maximum(
        0,
        frame.CU.to_numpy() * r.lognormal(0, 0.6, (count, len(frame)))
        + r.normal(0, 0.05, (count, len(frame))),
    ).astype(np.float32)


def prepared(folder, count=6, frame=None, economics=None, factors=FACTORS, **keys):
    frame = table(8, 7, 5, 5) if frame is None else frame
    study = study_of(folder, frame, economics=economics, **keys)
    np.save(Path(folder) / "sims.npy", grades_of(frame, count))
    risk.prepare(study, economics or costs(), Path(folder) / "sims.npy", factors)
    return study


def done(study):
    tasks = Tasks(study.folder, study.program)
    for task in risk.risk_tasks(study):
        tasks.do(task)
    return risk.Risk(study)
