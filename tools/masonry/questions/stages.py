"""Which stages of an order of building stand: each by the program's `stand` where it answers, or by linear programs.

Nothing here is proved, but each stage has a certificate that `check` accepts.
"""
from masonry import model as models, program
from masonry.console import Ended, Telling
from masonry.model import Model
from masonry.questions.case import Case
from masonry.questions.results import Collapses, Standing
from masonry.questions.voice import Silent

REFUSALS = 7, 8  # the statuses of what is too wide, and of a budget that is spent


def staged(name: str, cert: str, order: str, progress: Telling) -> None:
    """Asks about one stage after the other, until one collapses."""
    done = program.run("stages", name, order)
    if done.status not in (0, 1, *REFUSALS):
        raise Ended(done)
    model, names = models.read(name), models.text_of(order).splitlines()
    for number in range(1, len(names) + 1):
        built = model.built(names[:number])
        found = stage(built, f"{cert.removesuffix('.cert')}-{number}", lambda said: progress(f"stage {number}: {said}"))
        print(f"stage {number} {'collapses' if isinstance(found, Collapses) else 'stands'} accepted", flush=True)
        if isinstance(found, Collapses):
            return
    print("all stand")


def stage(model: Model, stem: str, progress: Telling) -> Standing:
    """Settles a stage. Its files are kept where it collapses, or where the program refuses it."""
    models.write(stem + ".toml", model)
    case = Case(stem + ".toml", stem + ".cert", progress, Silent())
    found = case.settled_stand()
    if not case.wide and not isinstance(found, Collapses):
        for end in ".toml", ".cert":
            models.discard(stem + end)
    return found
