"""The nearest known name to one that is not known."""

from typing import Iterable, List, Optional, Tuple

LONGEST_WORD = 64  # beyond it nothing is near
SHORTEST_PREFIX = 3  # `pos` for `position`, but not `p`


def distance(left: str, right: str) -> int:
    """Letters to insert, delete, replace, or to swap with their neighbour."""
    before: List[int] = []
    row = list(range(len(right) + 1))
    for i, one in enumerate(left, 1):
        last, before, row = before, row, [i]
        for j, other in enumerate(right, 1):
            cost = min(before[j] + 1, row[j - 1] + 1, before[j - 1] + (one != other))
            if i > 1 and j > 1 and one == right[j - 2] and left[i - 2] == other:
                cost = min(cost, last[j - 2] + 1)
            row.append(cost)
    return row[-1]


def _allowed(length: int) -> int:
    """How many slips a word of this length may have."""
    if length <= 2:
        return 0
    if length <= 4:
        return 1
    return 2 if length <= 8 else 3


def _common_prefix(left: str, right: str) -> int:
    count = 0
    for one, other in zip(left, right):
        if one != other:
            break
        count += 1
    return count


def _plain(word: str) -> str:
    return word.lower().replace('_', '').replace('-', '')


def _grade(word: str, known: str) -> Optional[Tuple[int, int, int]]:
    """How near: smaller is nearer, None is not near. Case first, then slips, then one name that begins the other."""
    if _plain(word) == _plain(known):
        return 0, distance(word, known), 0
    left, right = word.lower(), known.lower()
    shared = _common_prefix(left, right)
    slips = distance(left, right)
    if slips <= _allowed(min(len(left), len(right))) or sorted(left) == sorted(right) and slips == 1:
        return 1, slips, -shared
    if shared >= SHORTEST_PREFIX and shared == min(len(left), len(right)):
        return 2, abs(len(left) - len(right)), 0
    return None


def did_you_mean(word: str, known: Iterable[str]) -> str:
    """The known name that is nearest, of equally near ones the first; nothing if none is near, or the word itself is known."""
    names = list(known)
    if not word or len(word) > LONGEST_WORD or word in names:
        return ''
    best, best_grade = '', None
    for name in names:
        if not name or len(name) > LONGEST_WORD:
            continue
        grade = _grade(word, name)
        if grade is not None and (best_grade is None or grade < best_grade):
            best, best_grade = name, grade
    return best
