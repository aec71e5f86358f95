"""Several pictures of the same places: what they have in common, so that each place stands at the
same spot in all of them."""
import collections

from .drawing import text_width


def together(scenes):
    """A scene with all routes of some scenes of the same places. Each place is as large as in any
    of them, and each route as wide."""
    if len(scenes) == 1:
        return scenes[0]
    links = {}
    for scene in scenes:
        for key, link in zip(keys_of(scene.links), scene.links):
            both = links.get(key, link), link
            label = max((one.label for one in both), key=lambda text: text_width(text, 11))
            links[key] = max(both, key=lambda one: one.width)._replace(label=label)
    nodes = [largest(nodes) for nodes in zip(*(scene.nodes for scene in scenes))]
    return scenes[0]._replace(nodes=nodes, links=list(links.values()))


def largest(nodes):
    """A place as it is in some scenes: with its widest note. It sends or takes, whichever it does
    more often, and otherwise passes on."""
    node = max(nodes, key=lambda one: text_width(one.note, 11))
    sends, takes = (sum(one.kind == kind for one in nodes) for kind in ("sends", "takes"))
    kind = "passes" if sends == takes else "sends" if sends > takes else "takes"
    return node._replace(kind=kind, spot=next((one.spot for one in nodes if one.spot), None))


def keys_of(links):
    """What tells routes apart: their ends, and their order among those with the same ends."""
    seen, keys = collections.Counter(), []
    for link in links:
        keys.append((link.tail, link.head, seen[link[:2]]))
        seen[link[:2]] += 1
    return keys


def slots_of(scene, whole):
    """The numbers of the routes of a scene among those of the scene that has all."""
    numbers = {key: number for number, key in enumerate(keys_of(whole.links))}
    return [numbers[key] for key in keys_of(scene.links)]
