"""The one question that is asked at a time, and its one run of the program. A new question ends the old one."""
import time

from tree_page.program import PROGRAM

from .questions import NoAnswer
from .runs import Run
from .trees import Trees


class Question:
    """A question: the steps that are left, the run that it waits for, and what is told of it."""

    def __init__(self, number, name):
        self.started = time.monotonic()
        self.steps = self.run = None
        self.told = {"id": number, "question": name, "phase": "asking", "doing": "", "elapsed": 0.0}

    def tell(self, **said):
        self.told.update(said)

    def shown(self):
        if self.told["phase"] == "asking":
            self.told["elapsed"] = round(time.monotonic() - self.started, 2)
        return self.told


class Desk:
    def __init__(self, changed):
        self.changed, self.count, self.question, self.trees = changed, 0, None, Trees()

    def shown(self):
        if not self.question:
            return {"id": 0, "phase": "none"}
        return {**self.question.shown(), "building": self.is_building()}

    def is_building(self):
        return self.is_asking() and not PROGRAM.exists()

    def is_asking(self):
        return self.question is not None and self.question.run is not None

    def ask(self, name, steps, *asked):
        """Asks a question, and says its number."""
        self.stop("another question was asked")
        self.count += 1
        self.question = question = Question(self.count, name)
        question.steps = steps(self, self.count, question.tell, *asked)
        self.go_on(None)
        return self.count

    def go_on(self, run):
        """Hands a run that has ended to the question, and starts the one that it asks for then."""
        question = self.question
        question.run = None
        try:
            needed = question.steps.send(run)
            question.run = Run(needed.words, needed.source)
        except StopIteration as over:
            self.end(phase="done", **over.value)
        except (NoAnswer, OSError) as wrong:
            self.end(phase="failed", why=str(wrong))
        self.changed()

    def end(self, **said):
        self.question.shown()
        self.question.tell(doing="", **said)

    def tend(self):
        if self.is_asking() and self.question.run.has_ended():
            self.go_on(self.question.run)

    def stop(self, why):
        """Ends the question that is asked, where there is one, with its run."""
        if self.is_asking():
            self.question.run.stop()
            self.question.run = None
            self.question.steps.close()
            self.end(phase="stopped", why=why)
            self.changed()

    def close(self):
        self.stop("the server ended")
        self.trees.close()
