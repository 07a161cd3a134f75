"""Air files as test-replay.py and soak.py see them: read without the program, by docs/FORMATS-air.md, and made at random."""
import itertools

MOST_BYTES, MOST_TIME, MOST_ROWS = 8_388_608, 10**15, 100_000
HEAD = ["what", "name", "value"]


class AirFault(Exception):
    """Why a file is none: the program's line, without `air: `."""


class Network:
    """What a graph says of its network: the platforms at the ends of the links, their delays, and the clock errors."""

    def __init__(self, graph):
        places = {actor["name"]: actor["platform"] for actor in graph["actors"]}
        self.platforms = graph["platforms"]
        self.delays = {link["from"]: link["delay"] for link in graph["links"]}
        self.receivers = {link["from"]: link["to"] for link in graph["links"]}
        self.pairs = [(places[link["from"]], places[link["to"]]) for link in graph["links"]]
        errors = {frozenset(entry[:2]): entry[2] for entry in graph.get("clock_errors", [])}
        self.errors = {pair: errors.get(frozenset(pair), graph["clock_error"]) for pair in self.pairs}

    def breach(self, rows):
        """The number of the first row that is past a bound, by the lags of all rows; None if no row is."""
        lags = {name: number for what, name, number in rows if what == "lag"}
        apart = {name for pair in self.pairs for name in pair if abs(lags.get(pair[0], 0) - lags.get(pair[1], 0)) > self.errors[pair]}
        for row, (what, name, number) in enumerate(rows, 1):
            if name in apart if what == "lag" else number > self.delays[name]:
                return row
        return None


def records(text):
    """The records of a text as the crate csv reads them, each a list of fields. A quote means something only where a field begins."""
    record, field, state = [], "", "start"
    for sign in text:
        if state == "quoted":
            if sign == '"':
                state = "quote"
            else:
                field += sign
        elif state == "quote" and sign == '"':
            field, state = field + sign, "quoted"
        elif sign == "," or sign in "\r\n":
            # A blank line is no record.
            if sign == "," or record or state != "start":
                record, field, state = [*record, field], "", "start"
            if sign != "," and record:
                yield record
                record = []
        elif sign == '"' and state == "start":
            state = "quoted"
        else:
            field, state = field + sign, "plain"
    if record or state != "start":
        yield [*record, field]


def row_of(network, number, record, lags):
    """A row, or its fault."""
    if len(record) != 3 or record[0] not in ("lag", "transit"):
        raise AirFault(f"form at row {number}")
    what, name, value = record
    if name not in (network.platforms if what == "lag" else network.delays):
        raise AirFault(f"unknown at row {number}")
    if not (value.isascii() and value.isdigit() and len(value) <= 20 and int(value) <= MOST_TIME):
        raise AirFault(f"number at row {number}")
    if what == "lag" and name in lags:
        raise AirFault(f"repeated at row {number}")
    return what, name, int(value)


def rows_of(data, network):
    """The rows of a file, each with its kind, its name and its number."""
    if len(data) > MOST_BYTES:
        raise AirFault("too long")
    all_records = records(data.removeprefix(b"\xef\xbb\xbf").decode("latin-1"))
    if next(all_records, None) != HEAD:
        raise AirFault("header")
    rows, lags = [], set()
    for number, record in enumerate(itertools.islice(all_records, MOST_ROWS), 1):
        rows.append(row_of(network, number, record, lags))
        lags.update(row[1] for row in rows[-1:] if row[0] == "lag")
    if next(all_records, None) is not None:
        raise AirFault("too many rows")
    return rows


def spelled(rows, pick=None):
    """The bytes of a file with these rows; with `pick` they have quotes, leading zeros, blank lines and other ends of lines."""
    records_of_file = [HEAD, *([what, name, str(number)] for what, name, number in rows)]
    if pick is None:
        return "".join(",".join(record) + "\n" for record in records_of_file).encode()
    end, odd = pick.choice(["\n", "\n", "\r\n", "\r"]), pick.choice([0, 0.2])
    text = "\ufeff" if pick.random() < 0.1 else ""
    for record in records_of_file:
        if record is not records_of_file[0] and pick.random() < odd and len(record[2]) < 19:
            record[2] = "0" + record[2]
        text += ",".join(f'"{field}"' if pick.random() < odd else field for field in record) + end * pick.choice([1, 1, 1, 2])
    return (text[:-len(end)] if pick.random() < 0.1 else text).encode()


def transits(pick, network, draw):
    """Rows of transits, up to some number for each sender, those of different senders mixed."""
    rows = [("transit", name, draw(delay)) for name, delay in network.delays.items() for _ in range(pick.choice([0, 1, 5, 40, 200]))]
    pick.shuffle(rows)
    return rows


def lags_within(pick, network):
    """Lags of some platforms, so that those of linked ones are within their clock errors."""
    base, spread = pick.choice([0, 0, 0, 7, 10**6, MOST_TIME - 100]), max(network.errors.values(), default=100)
    for _ in range(30):
        rows = [("lag", name, min(MOST_TIME, base + pick.randint(0, min(spread, 100)))) for name in network.platforms if base or pick.random() < 0.7]
        if network.breach(rows) is None:
            return rows
    return [("lag", name, base) for name in network.platforms]


def mixed(pick, rows, lags):
    """The rows, with the lags before, behind or between them."""
    return pick.choice([lambda: lags + rows, lambda: rows + lags, lambda: pick.sample(lags + rows, len(lags + rows))])()


def within(pick, network):
    """Rows within all bounds."""
    draw = pick.choice([lambda delay: pick.randint(0, delay), lambda delay: 0, lambda delay: delay, lambda delay: pick.choice([0, delay])])
    return mixed(pick, transits(pick, network, draw), lags_within(pick, network))


def past(pick, network):
    """Rows of which some may be past a bound."""
    rare, far = pick.choice([0.02, 0.3, 1]), pick.choice([2, 10, 10**3, 10**6, MOST_TIME])

    def draw(delay):
        return min(MOST_TIME, pick.randint(0, max(1, delay) * far)) if pick.random() < rare else pick.randint(0, delay)

    lags = pick.choice([lambda: lags_within(pick, network), lambda: [], lambda: [("lag", name, min(MOST_TIME, pick.randint(0, 50 * far)))
                                                                                 for name in network.platforms if pick.random() < 0.5]])()
    return mixed(pick, transits(pick, network, draw), lags)
