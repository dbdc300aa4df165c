"""For tools/neighbours and tools/report: what holds together by pairs."""


def roots(count, pairs):
    """For each of so many places one of those that it holds together with, the same for all of them."""
    above = list(range(count))

    def root(place):
        while above[place] != place:
            above[place] = above[above[place]]
            place = above[place]
        return place

    for first, second in pairs:
        above[root(first)] = root(second)
    return [root(place) for place in range(count)]
