"""What admission makes of a small set, worked out from docs/RULES.md, "Response, age and admission", and from the tables of docs/FORMATS.md;
and small sets whose numbers are drawn. The other programs of this folder compare the real ones with it."""


def declared(scenario):
    """The items, transactions and relative sets of a scenario, with the members that may be absent."""
    items = scenario["items"]
    txns = [dict({"deadline": t["period"], "quiet": 0, "reads": [], "writes": []}, **t) for t in scenario["transactions"]]
    return items, txns, scenario.get("together", [])


def ceilings(txns, item):
    write = max([t["priority"] for t in txns if item in t["writes"]], default=0)
    absolute = max([t["priority"] for t in txns if item in t["reads"] or item in t["writes"]], default=0)
    return write, absolute


def blocking(txns, priority):
    def blocks(t):
        read = any(ceilings(txns, i)[0] >= priority for i in t["reads"])
        return read or any(ceilings(txns, i)[1] >= priority for i in t["writes"])

    return max([t["steps"] - t["quiet"] - 1 for t in txns if t["priority"] < priority and blocks(t)], default=0)


def demand(txns, t, window):
    higher = sum(-(-window // o["period"]) * o["steps"] for o in txns if o["priority"] > t["priority"])
    return t["steps"] + blocking(txns, t["priority"]) + higher


def response(txns, t):
    """The least window up to the deadline that holds its demand, or None. A window below the demand of a lesser one holds none."""
    window = 1
    while window <= t["deadline"]:
        needed = demand(txns, t, window)
        if needed <= window:
            return window
        window = needed
    return None


def age(items, txns, responses, item):
    kind = {i["name"]: i["kind"] for i in items}
    writer = next(t for t in txns if item in t["writes"])
    own = writer["period"] + responses[writer["name"]]
    if kind[item] == "sensor":
        return own
    return own + max([age(items, txns, responses, i) for i in writer["reads"] if kind[i] != "state"], default=0)


def refusal(items, txns, together):
    """The line of why a set is not admitted, without its first word; None if it is."""
    falling = sorted(txns, key=lambda t: -t["priority"])
    responses = {}
    for t in falling:
        responses[t["name"]] = response(txns, t)
        if responses[t["name"]] is None:
            return f"NotSchedulable {t['name']} {demand(txns, t, t['deadline'])}"
    ages = {i["name"]: age(items, txns, responses, i["name"]) for i in items if i["kind"] != "state"}
    for t in falling:
        for i in items:
            if i["name"] in t["reads"] and i["kind"] != "state" and ages[i["name"]] > i["validity"]:
                return f"TooOld {t['name']} {i['name']} {ages[i['name']]}"
    for t in falling:
        for place, group in enumerate(together):
            read = [ages[i] for i in set(group["items"]) if i in t["reads"]]
            if len(read) >= 2 and max(read) > group["within"]:
                return f"TooApart {t['name']} {place} {max(read)}"
    return None


def admit_text(items, txns, together):
    """What `admit` writes of a set, and its status."""
    why = refusal(items, txns, together)
    if why is not None:
        return f"refused {why}\n", 1
    responses = {t["name"]: response(txns, t) for t in txns}
    lines = [f"bound {t['name']} {blocking(txns, t['priority'])} {responses[t['name']]}" for t in txns]
    lines += [f"age {i['name']} {age(items, txns, responses, i['name'])}" for i in items if i["kind"] != "state"]
    return "".join(line + "\n" for line in [*lines, "admitted"]), 0


def small_set(rng, most_steps=4):
    """A scenario of a few transactions and items, whose numbers are drawn."""
    count = rng.randint(2, 5)
    periods = [rng.choice([8, 12, 20, 30, 50, 64]) for _ in range(count)]
    priorities = rng.sample(range(1, 20), count)
    txns = []
    for k, period in enumerate(periods):
        steps = rng.randint(1, min(most_steps, period))
        txns.append({"name": f"t{k}", "priority": priorities[k], "period": period, "steps": steps, "quiet": rng.randint(0, steps - 1),
                     "deadline": rng.randint(max(steps, period // 2), period), "reads": [], "writes": []})
    items = []
    for k in range(rng.randint(1, 6)):
        kind = rng.choice(["sensor", "sensor", "derived", "state"])
        item = {"name": f"i{k}", "kind": kind}
        writer = rng.choice(txns)
        if kind != "state":
            item["validity"] = rng.choice([24, 40, 60, 90, 150])
        writer["writes"].append(item["name"])
        for t in txns:
            # A transaction reads only items before the first that it writes, so that no item is derived from itself.
            if t is not writer and rng.random() < 0.6 and not any(int(w[1:]) <= k for w in t["writes"]):
                t["reads"].append(item["name"])
        items.append(item)
    dated = [i["name"] for i in items if i["kind"] != "state"]
    together = []
    if len(dated) >= 2 and rng.random() < 0.5:
        together = [{"items": rng.sample(dated, 2), "within": rng.choice([30, 60, 90, 120])}]
    return {"version": 2, "items": items, "transactions": txns, "together": together}
