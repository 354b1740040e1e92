"""The rules of the chain: which steps are active, what is effectively produced, which steps are needed
and by what, and which wait for which. docs/PROMISES.md has the same rules in words; whether a chain is
accepted is the program's to say."""

from dataclasses import dataclass, field


@dataclass
class Chain:
    """What the rules say of a project's steps. `reason` has for each needed step the item that makes it
    needed and the step that consumes the item, None for a final item."""

    project: object
    reason: dict = field(default_factory=dict)

    def __post_init__(self):
        self.producers = {item.name: [] for item in self.project.items}
        self.consumers = {item.name: [] for item in self.project.items}
        for step in self.project.steps:
            for it in step.produces:
                self.producers.setdefault(it.name, []).append(step)
            for it in step.consumes:
                self.consumers.setdefault(it.name, []).append(step)
        self.effective = {item: self.effective_producers(item) for item in self.producers}
        self.find_needed()

    def is_active(self, step):
        return not self.against(step)

    def against(self, step):
        """The conditions that keep a step from being active, as (key, entry): the key of the step and
        its entry."""
        config = self.project.config
        missing = [("only_if", it) for it in step.only_if if not config.get(it.name)]
        return missing + [("only_if_not", it) for it in step.only_if_not if config.get(it.name)]

    def effective_producers(self, item):
        """The active steps whose production of the item counts."""
        active = [it for it in self.producers.get(item, ()) if self.is_active(it)]
        firm = [it for it in active if "overridable" not in it.produced(item).marks]
        return firm or active

    def find_needed(self):
        """Goes from the final items to what produces them, the nearest first."""
        wanted = [(it.name, None) for it in self.project.finals]
        seen = set()
        while wanted:
            item, consumer = wanted.pop(0)
            if item in seen:
                continue
            seen.add(item)
            for step in self.effective.get(item, ()):
                if "weak" in step.produced(item).marks or step.number in self.reason:
                    continue
                self.reason[step.number] = (item, consumer)
                wanted += [(it.name, step) for it in step.consumes]

    def is_needed(self, step):
        return step.number in self.reason

    def needed_producers(self, item):
        """The needed steps whose production of the item counts, weak ones too."""
        return [it for it in self.effective.get(item, ()) if self.is_needed(it)]

    def needed_consumers(self, item):
        return [it for it in self.consumers.get(item, ()) if self.is_needed(it)]

    def path(self, step):
        """How a final item leads to a needed step: (step, item, consumer) from the step on."""
        found = []
        while step is not None:
            item, consumer = self.reason[step.number]
            found.append((step, item, consumer))
            step = consumer
        return found

    def edges(self):
        """(producer, item, consumer) of needed steps, by the consumer's number."""
        return [
            (producer, it.name, step)
            for step in self.project.steps
            if self.is_needed(step)
            for it in step.consumes
            for producer in self.needed_producers(it.name)
        ]

    def standing(self, step, item):
        """Why a step's production of an item counts or doesn't, in words."""
        if not self.is_active(step):
            return "isn't active: " + ", ".join(self.condition(*it) for it in self.against(step))
        marks = step.produced(item).marks
        if step not in self.effective[item]:
            others = ", ".join(it.full_name for it in self.effective[item])
            return f"is overridden by {others}"
        if self.is_needed(step):
            return "is needed"
        if "weak" in marks:
            return f"isn't needed: its production of {item} is weak, and nothing else makes it needed"
        return "isn't needed: nothing that is needed consumes what it produces"

    def condition(self, key, entry):
        """Why a condition doesn't hold, in words."""
        if entry.name not in self.project.config:
            return f"its `{key}` names {entry.name}, which `config` doesn't have"
        return f"its `{key}` names {entry.name}, which is {'true' if key == 'only_if_not' else 'false'}"
