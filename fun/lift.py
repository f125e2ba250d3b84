"""Local functions become functions of the module: the variables that they use become their first arguments.

The method is that of Johnsson (1985): a local function uses what its body names and what the local functions use that
it calls, but for what it binds itself.
"""

from fun.core import Local, Var, bound, walk


def resolve_locals(instances, body):
    """Finds for each local function the variables that it uses: from what bodies name until nothing is added."""
    used, calls, binders = {}, {}, {}
    for instance in instances:
        names, others, own = set(), set(), set(instance.parameters)
        for node in walk(instance.body):
            if isinstance(node, Var):
                names.add(node)
            elif isinstance(node, Local):
                others.add(node.instance)
            else:
                own.update(bound(node))
        used[instance], calls[instance], binders[instance] = names - own, others, own
    changed = True
    while changed:
        changed = False
        for instance in instances:
            for other in calls[instance]:
                more = used[other] - binders[instance] - used[instance]
                if more:
                    used[instance] |= more
                    changed = True
    for instance in instances:
        instance.extra = sorted(used[instance], key=lambda variable: variable.number)
