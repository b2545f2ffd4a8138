"""Eigenvectors of the adjacency of a graph, by powers and by Jacobi's rotations, as places in space for its points."""

import itertools
import math
import random

from reflections import inner

NOTHING = 1e-9
MOST_POINTS = 400
APART = 0.02

# How many vectors are followed, how many of them are looked at, and by how many powers, a few at a time.
FOLLOWED, LOOKED_AT, TIMES, AT_A_TIME = 18, 9, 40, 8


def multiplied(vector, beside):
    """The vector times the adjacency and the degree, so that the greatest eigenvalues are those of the greatest size."""
    return [len(row) * entry + sum(vector[to] for to in row) for entry, row in zip(vector, beside)]


def orthonormal(vectors):
    """Vectors of length one at right angles, of which the first few span what the first few of these span."""
    found = []
    for vector in vectors:
        for other in found:
            part = inner(vector, other)
            vector = [a - part * b for a, b in zip(vector, other)]
        length = math.sqrt(inner(vector, vector))
        if length > NOTHING:
            found.append([a / length for a in vector])
    return found


def turn(rows, one, other, cosine, sine):
    """Turns two rows of a matrix."""
    first, second = rows[one], rows[other]
    rows[one] = [cosine * a - sine * b for a, b in zip(first, second)]
    rows[other] = [sine * a + cosine * b for a, b in zip(first, second)]


def jacobi(matrix):
    """The eigenvectors of a small symmetric matrix, that of the greatest eigenvalue first."""
    count = len(matrix)
    vectors = [[float(at == place) for at in range(count)] for place in range(count)]
    for _ in range(15):
        for one, other in itertools.combinations(range(count), 2):
            if abs(matrix[one][other]) > NOTHING**2:
                slope = (matrix[other][other] - matrix[one][one]) / (2 * matrix[one][other])
                tangent = math.copysign(1, slope) / (abs(slope) + math.hypot(slope, 1))
                cosine = 1 / math.hypot(tangent, 1)
                turn(matrix, one, other, cosine, tangent * cosine)
                matrix = [list(row) for row in zip(*matrix)]
                turn(matrix, one, other, cosine, tangent * cosine)
                turn(vectors, one, other, cosine, tangent * cosine)
    return [vectors[at] for at in sorted(range(count), key=lambda at: -matrix[at][at])]


def greatest_eigenvectors(beside):
    """The eigenvectors of the greatest eigenvalues, the greatest first, of the graph that has these points beside each."""
    chance = random.Random(1)
    vectors = orthonormal([[chance.uniform(-1, 1) for _ in beside] for _ in range(FOLLOWED)])
    for _ in range(TIMES):
        for _ in range(AT_A_TIME):
            vectors = [multiplied(vector, beside) for vector in vectors]
        vectors = orthonormal(vectors)
    images = [multiplied(vector, beside) for vector in vectors]
    mixed = jacobi([[inner(one, other) for other in images] for one in vectors])
    return [[inner(row, column) for column in zip(*vectors)] for row in mixed[:LOOKED_AT]]


def are_apart(places):
    """Whether no two places are near one another, by the size of the whole."""
    size = max(math.hypot(*place) for place in places)
    rows = sorted(places)
    for at, one in enumerate(rows):
        for other in itertools.islice(rows, at + 1, None):
            if other[0] - one[0] > APART * size:
                break
            if math.dist(one, other) < APART * size:
                return False
    return True


def spectral_places(count, edges):
    """Places in space for the points of a connected graph, or None.

    They are by the first three eigenvectors that keep all points apart; the first one of all, which is constant, is left out.
    """
    if not 3 < count <= MOST_POINTS:
        return None
    beside = [[] for _ in range(count)]
    for _, one, other in edges:
        beside[one].append(other)
        beside[other].append(one)
    vectors = greatest_eigenvectors(beside)[1:]
    for chosen in itertools.combinations(vectors, min(3, len(vectors))):
        places = list(zip(*chosen))
        if are_apart(places):
            return places
    return None
