"""The refusals: their numbers, names and statuses."""

_TABLE = """
1 BadHead 400
2 BodyNotAllowed 400
3 BadHost 400
4 VersionNotOffered 505
5 MethodNotOffered 405
6 NoSuchPage 404
7 UnknownParameter 400
8 RepeatedParameter 400
9 BadFormat 400
10 MissingParameter 400
11 BadCoords 400
12 WrongGeometry 400
13 BadBbox 400
14 BadDatetime 400
15 BadLevel 400
16 BadDistance 400
17 Conflict 400
18 UnknownCollection 404
19 UnknownInstance 404
20 UnknownLocation 404
21 QueryNotOffered 400
22 UnknownParameterName 400
23 BadCrs 400
24 NoLevels 400
25 NoSamples 404
26 TooLarge 413
"""

_ROWS = [line.split() for line in _TABLE.split("\n") if line]

NUMBERS = {name: int(number) for number, name, _ in _ROWS}
STATUSES = {name: int(status) for _, name, status in _ROWS}


class Refused(Exception):
    """The target is refused, by the first refusal that applies."""

    def __init__(self, name: str):
        super().__init__(name)
        self.name = name

    def body(self) -> str:
        """The body of the reply."""
        return f'{{"code":"{self.name}","number":{NUMBERS[self.name]}}}'
