"""Whether the description lets frames be lost that a capture lacks: the verdict on them, and why."""
from collections import Counter

from afdx.reckon.capture_judge import CaptureJudge
from afdx.reckon.capture_rows import ALLOWED, BROKEN
from afdx.reckon.captured_links import CapturedLink
from afdx.reckon.captured_pairs import Way
from afdx.reckon.sequence_numbers import LOST
from afdx.reckon.tap_limits import CLOCK_PPM

Verdict = tuple[str, str]


def verdict_of_losses(judge: CaptureJudge, link: CapturedLink) -> Verdict:
    """Of frames that are lost before a tap. Those that a later tap saw were not lost, and those that an earlier one saw were so behind it."""
    ways = [it for it in link.pairs if isinstance(it, Way)]
    if later := next((it for it in ways if it.one is link and it.count and it.only_at_other[link]), None):
        return BROKEN, f"{later.other.tap}, a later tap, saw {later.only_at_other[link]} of them"
    way, lost = judge.limits.way_to(link.vl, link.line), link.numbers.counts[LOST]
    nearest = max((it for it in ways if it.other is link), key=lambda it: way.index(it.one.line), default=None)
    found = ALLOWED, ""
    if nearest is not None and nearest.only_at_other[link] > 0:
        behind = nearest.only_at_other[link]
        found = on_the_way(judge, link, way[way.index(nearest.one.line) :], behind, nearest.one)
        lost -= behind
    if found[0] == ALLOWED and lost > 0:
        found = on_the_way(judge, link, ["", *way], lost, None)
    return found


def on_the_way(judge: CaptureJudge, link: CapturedLink, part: list[str], lost: int, before: CapturedLink | None) -> Verdict:
    """Of so many frames that were lost on these lines or at the nodes between them. A tap of the first line saw them, where there is one: it
    may be at the near end of it. What nodes show that afdx pcap names needs no other reason."""
    way = part[1:]
    if judge.limits.is_dropped_as_too_long(link.vl, way):
        return ALLOWED, "NET has frames above smax, which the first switch drops"
    full, refusing = judge.limits.full_ports(link.vl, way), judge.limits.refusing(link.vl, way)
    shown = shown_at_nodes(judge, link, way) if full or refusing else None
    rest, times, says = lost, link.losses, ""
    if shown is not None:
        nodes, numbers = shown
        count = (link.numbers.lost & numbers).total()
        rest, times = lost - count, runs_of(link.numbers.lost, link.numbers.lost - numbers)
        says = f"the capture has {count} of {lost} frames at {nodes}, where afdx pcap writes those that are lost"
        if rest <= 0:
            return ALLOWED, says
    verdict, why = of_outages(judge, link, part, rest, times)
    if verdict == ALLOWED or shown is not None:
        return verdict, why if verdict == ALLOWED else says
    at_accounts = of_accounts(judge, link, refusing)
    if at_accounts[0] == ALLOWED or not full:
        return at_accounts[0], at_accounts[1] or why
    if full == [link.line] and not why:
        return of_port(judge, link, before)
    return ALLOWED, f"by the bounds the port before {full[0]} may be too small"


def runs_of(lost: Counter[int], wanted: Counter[int]) -> int:
    """How many runs of numbers that follow one another have one of the wanted ones."""
    found, is_counted, before = 0, False, None
    for number in sorted(+lost):
        is_counted = is_counted and number - 1 == before
        if number in wanted and not is_counted:
            found, is_counted = found + 1, True
        before = number
    return found


def of_outages(judge: CaptureJudge, link: CapturedLink, lines: list[str], lost: int, times: int) -> Verdict:
    """An outage loses frames that follow one another: so many were lost so often. Where NET has an outage of the tapped line itself, and no later tap saw any of its
    frames, the capture has those that afdx pcap shows as lost there, and no others."""
    count, most = judge.limits.most_in_outages(link.vl, lines)
    if not count:
        return BROKEN, ""
    says = "NET has an outage" if count == 1 else f"NET has {count} outages"
    if not (judge.limits.most_in_outages(link.vl, [link.line])[0] and all(not it.count for it in link.pairs if isinstance(it, Way))):
        if times > count:
            return BROKEN, f"{says} on the way, and frames are lost {times} times"
        if most is not None and lost > most:
            return BROKEN, f"{says} on the way, which loses at most {most} frames"
    return ALLOWED, f"{says} on the way"


def shown_at_nodes(judge: CaptureJudge, link: CapturedLink, way: list[str]) -> tuple[str, Counter[int]] | None:
    """The nodes on a part of the way by which interfaces are named, and the numbers that these have; None without one."""
    nodes = [line.split(">")[0] for line in way]
    named = [it for it in nodes if it in judge.named_by_nodes]
    if not named:
        return None
    shown: Counter[int] = Counter()
    for it in named:
        shown += judge.named_by_nodes[it].get((link.vl.id, link.net), Counter())
    return " and ".join(named), shown


# ---- accounts ----


def of_accounts(judge: CaptureJudge, link: CapturedLink, refusing: list[tuple[str, str]]) -> Verdict:
    """An account that by the bounds may refuse frames is no reason where a tap before it shows that they do not come too close."""
    open_at = []
    for switch, line in refusing:
        before = tapped(judge, link, line)
        if before is None:
            open_at.append((switch, line))
            continue
        early = shown_early(judge, before)
        if early > link.vl.policing_ns:
            return ALLOWED, f"frames come up to {early} ns too early to {switch}, whose account refuses them above {link.vl.policing_ns}"
    if open_at:
        switch, line = open_at[0]
        return BROKEN, f"by the bounds the account at {switch} may refuse frames: a tap at {line} would show whether it did"
    return BROKEN, ""


def tapped(judge: CaptureJudge, link: CapturedLink, line: str) -> CapturedLink | None:
    """The same virtual link at a tap of a line."""
    return next((it for it in judge.by_vl.get(link.vl.id, ()) if it.net == link.net and it.line == line), None)


def shown_early(judge: CaptureJudge, link: CapturedLink) -> int:
    """By how many ns frames may have come too early at a tap at most: by what it saw, by a BAG that clocks make shorter, and by its unit."""
    if link.closeness.value is None:
        return 0
    return link.closeness.value + 4 * link.vl.bag_ns * CLOCK_PPM // 10**6 + judge.taps[link.tap].resolution_ns


# ---- ports ----


def of_port(judge: CaptureJudge, link: CapturedLink, before: CapturedLink | None) -> Verdict:
    """A port that is full keeps its line busy until all that waits is sent. If the next frame comes to the port before that, and is not
    high, the line is busy until it is sent."""
    node = judge.net.nodes[link.line.split(">")[0]]
    full_ns = (node.port_bytes - link.vl.sizes[-1] + 1) * judge.limits.byte_ns(link.line)
    says = f"a port that is full keeps {link.line} busy for {full_ns} ns"
    if link.busy is not None and link.is_loss_seen and link.busy.longest < full_ns:
        return BROKEN, f"{says}: it was for {link.busy.longest} at most"
    is_first_out = node.kind == "switch" and link.vl.priority == "high"
    is_next = before is not None and judge.limits.way_to(link.vl, link.line)[-2:-1] == [before.line] and before.longest_pause < full_ns
    if is_next and not is_first_out and link.least_busy is not None and link.least_busy < full_ns:
        return BROKEN, f"{says}: behind a lost frame it was for {link.least_busy}"
    return ALLOWED, f"by the bounds the port before {link.line} may be too small"
