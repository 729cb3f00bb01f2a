"""The rules that a document breaks, as lines."""


class Faults:
    """Gathers what is wrong, each with where it is."""

    def __init__(self) -> None:
        self.lines: list[str] = []

    def add(self, where: str, what: str) -> None:
        self.lines.append(f"{where}: {what}")

    def needs(self, where: str, holds: bool, what: str) -> bool:
        """Adds what is wrong unless something holds; tells whether it does."""
        if not holds:
            self.add(where, what)
        return holds

    def is_object(self, where: str, tree) -> bool:
        return self.needs(where, isinstance(tree, dict), "is no object")

    def is_list_of_texts(self, where: str, tree) -> bool:
        """Whether it is a list of texts, of one at least."""
        good = isinstance(tree, list) and len(tree) > 0 and all(isinstance(each, str) for each in tree)
        return self.needs(where, good, "is no list of texts, or an empty one")

    def is_text_where_given(self, where: str, tree: dict, name: str) -> bool:
        return self.needs(f"{where}.{name}", name not in tree or isinstance(tree[name], str), "is no text")
