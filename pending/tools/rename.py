#!/usr/bin/env python3
"""rename.py TREE: issue 16, step 3. Field's terms for crates, types, functions and files of the crates above `model`.

Names are resolved, not replaced by text: a name of a specification is renamed where it is declared in one of the crates that its rule
names, and in every file that imports it from there; a function where it is defined, called in its crate or by a path, and in the names
that the prover makes of it (`.f`, `f-requires`, `Need-..-f`, `f-spec`, `f-reads`, proofs.f.); a type likewise. Crates of PROTECTED and
`wirecheck` are not touched. What is absent is passed over; a second run does nothing. At the end: what was renamed, and every new name that
was in use already in a file that it now stands in (CLASH).
"""
import collections
import os
import re
import subprocess
import sys
import textwrap

PROTECTED = set("laws ids copies lines frames quota answers model".split())
SKIPPED = PROTECTED | {"wirecheck"}

CRATES = {"judges": "checks", "grants": "handles", "effects": "commands", "execution": "dispatch",
          "export": "eikelzwier", "export_journal": "eikelzwier_journal", "export_recovery": "eikelzwier_recovery"}


def crates(text):
    """The crates that a rule names, each under its old name and its new one."""
    found = set()
    for name in text.split():
        found.add(name)
        found.add(CRATES.get(name, name))
    return found


HAND = "grants effects"  # what was in either may stand in `handles` or `commands`

# FUNCTIONS: crates, old, new
FUNCTIONS = [(crates(c), o, n) for c, o, n in [
    ("rings", "wide", "to_usize"), ("rings", "byte_wide", "byte_to_usize"), ("seeds", "wide", "byte_to_usize"),
    ("tables", "standing", "peer_refusal"), ("tables", "lowest", "lowest_bit"), ("tables", "without", "clear_bit"),
    ("queues", "settle", "remove_front_payload"), ("queues", "lessen", "discharge_match"), ("queues", "lessen_all", "discharge_matches"),
    ("judges", "judge", "check"), ("judges", "starts", "actor_refusal"),
    *[("judges effects", "judge_" + x, "check_" + x) for x in "open disconnect create destroy release transfer send receive quota holders seed".split()],
    ("notices", "tell", "queue_notices"), ("notices", "tell_owners", "queue_release_notices"), ("notices", "post", "queue_at_peers"),
    ("notices", "addressees", "recipients"), ("notices", "addressees_at", "recipients_at"), ("notices", "addressees_of", "recipients_of"),
    ("notices effects", "bury", "mark_dead"), ("notices", "is_asked", "is_selected"), ("notices", "bit_asked", "selected_bit"),
    ("notices", "bit_told", "recipient_bit"), ("notices", "concerns", "is_recipient"), ("notices", "falls", "falls_to_one"),
    (HAND, "give", "acquire"), (HAND, "give_all", "acquire_all"), (HAND, "add_reference", "acquire_reference"),
    (HAND, "drop_reference", "release_reference"), (HAND, "forget", "drop_handle"), (HAND, "forget_own", "drop_own_handle"),
    (HAND, "notify", "queue_release_notice"),
    ("execution", "carry_out", "run_action"), ("execution", "change", "apply_action"), ("execution", "alter", "change_tables"),
    ("bus execution", "obey", "process_frame"), ("bus execution", "execute", "run_command"),
    ("journal", "obey", "process_frame"), ("journal", "execute", "run_command"),
    ("export_recovery", "told", "result_of"),
    ("session", "turned", "new_turn"), ("session", "reached", "progress_of"), ("session", "refuse", "put_refusal"),
    ("busline", "say_not_read", "report_read_error"), ("busline", "say_not_written", "report_write_error"),
    ("busline", "beginning", "initial_progress"), ("busline", "ended", "final_turn"), ("busline", "sent_to", "new_sent"),
    ("busline", "carry", "carry_piece"), ("busline", "take_turn", "process_chunk"),
]]

# TYPES: crates, old, new
TYPES = [(crates(c), o, n) for c, o, n in [
    ("judges", "Order", "Action"), ("judges", "Ruling", "Decision"), ("judges", "Places", "SendSlots"), ("notices", "Asked", "SlotFilter"),
]]

# FIELDS and variables: crates, old, new. A field stands behind a dot or before `:` or ` =`; a variable anywhere.
VARIABLES = [(crates(c), o, n) for c, o, n in [
    ("judges execution bus bus_model journal journal_model session recovery", "order", "action"),
]]
FIELDS = [(crates(c), o, n) for c, o, n in [
    ("judges execution bus bus_model journal journal_model session recovery", "places", "slots"),
]]

# MODULES of specs: crates, old, new
MODULES = [(crates(c), o, n) for c, o, n in [
    ("judges", "Orders", "Decisions"), ("judges", "CodeOrders", "CodeChecks"), ("judges", "CodeRulings", "CodeDecisions"),
    ("bus_model", "Tie", "Refinement"), ("bus_model", "Seen", "DecisionRefinement"), ("bus_model", "Carried", "ActionRefinement"),
    ("bus_model", "Ran", "Runs"), ("bus_model", "Orderly", "RunSegments"), ("bus_model", "Marked", "DocumentExamples"),
    ("bus_model", "Fairness", "ActionBounds"), ("bus_model", "Apart", "BufferIndependence"), ("bus_model", "Searched", "HandleSearch"),
    ("bus_model", "Sound", "BufferTests"), ("bus_model", "Third", "ThirdDemand"), ("bus_model", "Untouched", "Preservation"),
    ("queues", "Asking", "EntryQueries"), ("queues", "Carrying", "CarriedSlots"), ("queues", "Entering", "EntryInsertion"),
    ("queues", "Leaving", "EntryRemoval"), ("queues", "Sparing", "NoticeRemoval"),
    ("notices", "Telling", "QueuedNotices"), ("notices", "Rising", "AscendingPlaces"), ("notices", "Expiring", "NoticeExpiry"),
    ("grants", "Grants", "Acquisition"), ("grants", "Giving", "AcquisitionRefinement"), ("grants", "Listing", "ListInvariant"),
    ("effects", "After", "BusAfter"), ("effects", "Counting", "CommandCount"), ("effects", "Destroying", "DestroyRefinement"),
    (HAND, "Forgetting", "DropRefinement"), ("effects", "Good", "StateInvariant"), ("effects", "Listing", "ListInvariant"),
    ("effects", "Opening", "OpenRefinement"), ("effects", "Receiving", "ReceiveRefinement"), (HAND, "Releasing", "ReleaseRefinement"),
    ("effects", "Seeding", "SeedRefinement"), ("effects", "Sending", "SendRefinement"), ("effects", "Showing", "ShowSeedRefinement"),
    (HAND, "Unkept", "OrphanedNotices"), (HAND, "Drops", "Release"), (HAND, "CodeDrops", "CodeRelease"),
    ("tables", "Listed", "HandleLists"),
    ("journal_model", "Counted", "CountedCommands"), ("journal_model", "Exact", "ExactRecovery"),
    ("journal_model", "Journalled", "JournalStatements"), ("journal_model", "Stops", "RecoveryStops"),
]]

# SOURCES, modules of the code (src/x.rt): crates, old, new
SOURCES = [(crates(c), o, n) for c, o, n in [
    ("notices", "expiring", "expiry"), ("notices", "telling", "queueing"),
    ("queues", "asking", "queries"), ("queues", "entering", "insertion"), ("queues", "leaving", "removal"),
]]

# NAMES declared in specs (and in proofs): crates, module (old or new name; * is any), pattern of the whole name, replacement
NAMES = [(crates(c), m, re.compile("^(?:%s)$" % p), r) for c, m, p, r in [
    ("judges", "*", r"rulingOf", "decisionOf"), ("judges", "*", r"sendRuling", "sendDecision"), ("judges", "*", r"ruled-(.*)", r"decided-\1"),
    ("judges", "*", r"Sight", "Lookup"), ("judges", "*", r"sight", "lookupOf"), ("judges", "*", r"plainSight", "plainLookup"),
    ("journal_model", "*", r"sight-of", "lookup-of"),
    ("judges", "*", r"startsAt", "actorRefusalAt"), ("judges", "*", r"starts-(.*)", r"actor-refusal-\1"),
    ("judges", "*", r"noPlaces", "noSlots"), ("judges", "*", r"placesOf", "sendSlotsOf"), ("judges", "*", r"placesIn", "sendSlotsIn"),
    ("bus_model", "*", r"places-same", "send-slots-same"), ("bus_model", "*", r"ruling-same", "decision-same"),
    ("journal_model", "*", r"of-ruling", "of-decision"), ("bus", "*", r"fair-ruling", "decision-in-bounds"),
    ("tables", "*", r"standingAt", "peerRefusalAt"), ("tables", "*", r"standing-(.*)", r"peer-refusal-\1"),
    ("queues", "*", r"lessened", "dischargedMatch"), ("queues", "*", r"lessenedAll", "dischargedMatches"),
    ("queues", "*", r"lessenedCharges", "dischargedCharges"), ("queues", "*", r"Lessening", "Discharging"),
    ("queues", "*", r"lessening-(.*)", r"discharging-\1"), ("queues", "*", r"lessen-(.*)", r"discharge-match-\1"),
    ("queues", "*", r"lessened-(.*)", r"discharged-\1"),
    ("queues", "*", r"settledCharges", "chargesWithoutFront"), ("queues", "*", r"settledPool", "poolWithoutFront"),
    ("queues", "*", r"settle-(charges|pool)", r"front-\1"),
    ("notices", "Notices", r"Fair", "InBounds"), ("notices", "Expiring", r"Fair", "QueueFacts"), ("notices", "NoticeExpiry", r"Fair", "QueueFacts"),
    ("notices", "*", r"fair-falling", "in-bounds-falling"), ("notices", "*", r"fair-kept", "facts-kept"),
    ("notices", "*", r"asks", "selects"), ("notices", "*", r"asks-(.*)", r"selects-\1"), ("notices", "Code", r"Asking", "Selecting"),
    ("notices", "*", r"asking-(.*)", r"selecting-\1"),
    ("notices", "*", r"fallsAt", "fallsToOneAt"), ("notices", "*", r"falls-(?!to-one)(.*)", r"falls-to-one-\1"),
    ("notices", "*", r"tellsAt", "isRecipientAt"), ("notices", "*", r"tells-is", "is-recipient-view"),
    ("notices", "*", r"concerns-(.*)", r"is-recipient-\1"),
    ("notices effects", "*", r"postedTo", "queuedAtPeers"), ("notices effects", "*", r"posted-(.*)", r"queued-at-peers-\1"),
    ("notices", "*", r"post-fit", "queue-at-peers-fit"), ("notices", "*", r"postAll", "queueAll"), ("notices", "*", r"Posting", "QueueingAtPeers"),
    ("notices", "*", r"posting-(.*)", r"queueing-at-peers-\1"),
    ("notices", "*", r"addressees", "recipients"), ("notices", "*", r"addressees(At|Of)", r"recipients\1"), ("notices", "*", r"Addressing", "Recipients"),
    ("notices", "*", r"addressing-(.*)", r"recipients-\1"), ("notices", "*", r"addresseesBits", "recipientsBits"),
    ("notices effects", "*", r"told", "noticesQueued"), ("notices effects", "*", r"told-(.*)", r"notices-queued-\1"),
    ("notices", "*", r"toldOwners", "releaseNoticesQueued"), ("effects", "*", r"toldBus", "busNotified"), ("effects", "*", r"toldRings", "ringsNotified"),
    ("notices", "*", r"tell-fit", "queue-notices-fit"), ("notices", "Code", r"Telling", "QueueingNotices"),
    ("notices", "*", r"telling-(.*)", r"queueing-notices-\1"),
    ("notices", "*", r"bury-(.*)", r"mark-dead-\1"), ("notices", "*", r"deadAll", "markedDead"),
    (HAND, "Grants", r"Given", "Acquired"), (HAND, "Acquisition", r"Given", "Acquired"), (HAND, "*", r"Gives", "AcquiredAll"),
    (HAND, "*", r"givenOf", "acquiredOf"), (HAND, "*", r"givenTo", "acquiredBy"), (HAND, "*", r"givesOf", "acquiredAllOf"), (HAND, "*", r"givesTo", "acquiredAllBy"),
    (HAND, "*", r"givenOn", "acquiredOn"), (HAND, "*", r"givenBus", "busAcquired"), (HAND, "*", r"givesOn", "acquiredAllOn"), (HAND, "*", r"givesBus", "busAcquiredAll"),
    (HAND, "Code", r"Giving", "Acquiring"), (HAND, "*", r"giving-start", "acquiring-start"), (HAND, "*", r"gives-(.*)", r"acquired-all-\1"),
    (HAND, "Code", r"give-(dead|one|more)", r"acquire-\1"), (HAND, "*", r"given-(lengths|shape|shown|view|heads|raw)", r"acquired-\1"),
    (HAND, "*", r"forgotten", "droppedHandle"), (HAND, "*", r"forgottenOwn", "droppedOwnHandle"), (HAND, "*", r"forget-(.*)", r"drop-handle-\1"),
    (HAND, "*", r"forgotten-(.*)", r"dropped-handle-\1"), (HAND, "*", r"shape-forgotten", "shape-dropped-handle"),
    (HAND, "*", r"notified", "releaseNoticeQueued"), (HAND, "*", r"notified-(.*)", r"release-notice-queued-\1"), (HAND, "*", r"shape-notified", "shape-release-notice"),
    (HAND, "*", r"notify-(dead|more|one|view)", r"queue-release-notice-\1"),
    (HAND, "*", r"dropped", "releasedReference"), (HAND, "*", r"droppedOf", "releasedReferenceOf"), (HAND, "*", r"Dropped", "ReleasedReference"),
    (HAND, "*", r"drop-done", "release-reference-done"),
    ("bus_model", "*", r"Fair", "InBounds"), ("bus_model", "*", r"fair", "in-bounds"), ("bus_model", "*", r"fair-resolved", "in-bounds-resolved"),
    ("execution", "*", r"fair-as", "in-bounds-as"),
    ("bus_model", "*", r"carriedOut", "actionRun"), ("bus_model session", "*", r"obeyed", "processed"),
    ("bus_model session", "*", r"obeyed-(.*)", r"processed-\1"), ("bus_model session", "*", r"(alike|left|written|writes)-obeyed", r"\1-processed"),
    ("journal_model", "*", r"obeyedWith", "processedWith"),
    ("bus execution", "*", r"executed", "command-run"), ("journal", "*", r"executedWith", "commandRunWith"), ("journal", "*", r"executed-(.*)", r"command-run-\1"),
    ("journal", "*", r"execute-(full|next)", r"run-command-\1"),
    ("bus_model", "*", r"altered", "tablesChanged"), ("execution", "*", r"alters-(.*)", r"changes-\1"),
    ("bus_model", "Command", r"changed", "applied"), ("bus_model", "Command", r"changedOf", "appliedOf"), ("bus_model", "Command", r"Changed", "Applied"),
    ("bus_model", "Command", r"settled", "appliedPlainly"), ("execution", "*", r"did-settle", "did-apply-plainly"), ("execution", "*", r"did-change", "did-apply"),
    ("journal_model", "*", r"toldFrom", "resultFrom"), ("journal_model", "*", r"toldOf", "resultOf"), ("journal_model", "*", r"told-as", "result-as"),
    ("export_recovery", "*", r"told-(said|whole)", r"result-\1"),
    ("session", "*", r"Turned", "AnsweredLine"), ("session", "*", r"turned", "answered-line"),
]]

# New names that may stand in a file already, each with its reason.
KNOWN = {"slots": "a field of Decision beside the number of slots; the logic keeps fields apart"}

# PHRASES of comments: crates, pattern, replacement
PHRASES = [(crates(c), re.compile(p), r) for c, p, r in [
    ("judges effects bus_model execution bus journal journal_model", r"\bAn order\b", "An action"),
    ("judges effects bus_model execution bus journal journal_model", r"\ban order\b", "an action"),
    ("judges effects bus_model execution bus journal journal_model", r"\b([Ee]ach|[Ee]very|[Aa]ny other|every other|whose|no) order\b(?! of)", r"\1 action"),
    ("judges effects bus_model execution bus journal journal_model", r"\b([Tt]he) orders (of no arm|other than)", r"\1 actions \2"),
    ("judges effects bus_model execution bus journal journal_model", r"\bnine orders\b", "nine actions"),
    ("judges effects bus_model execution bus journal journal_model", r"\b([Tt]he) order (that (?:carries|a command|it comes)|of a command|carried out)", r"\1 action \2"),
    ("judges effects bus_model execution bus journal journal_model", r"\b(the) order(, and a send's|, for the status| stands)", r"\1 action\2"),
    ("judges effects bus_model execution bus journal journal_model", r"\bof the judges\b", "of the checks"),
    ("judges effects bus_model execution bus journal journal_model", r"\bto the judge\b", "to the checks"),
    ("judges effects bus_model execution bus journal journal_model", r"\bwhole ruling\b", "whole decision"),
    ("judges effects bus_model execution bus journal journal_model", r"\b([Aa]|the) ruling\b", r"\1 decision"),
    ("judges effects bus_model execution bus journal journal_model", r"\bjudgements\b", "checks"),
    ("judges effects bus_model execution bus journal journal_model", r"\b([Aa]) judgement\b", r"\1 check"),
    ("judges effects bus_model execution bus journal journal_model", r"\bjudgement\b", "check"),
    ("judges effects bus_model execution bus journal journal_model", r"\b(command|order|action) (is |that was )?judged\b", r"\1 \2checked"),
    ("judges effects bus_model execution bus journal journal_model", r"\b[Ww]hat is judged is fair, and it is\b", "what is decided is in bounds, and it is"),
    ("judges effects bus_model execution bus journal journal_model", r"\bWhat is judged is\b", "What is decided is"),
    ("bus journal", r"\bor the command is obeyed\b", "or the frame is processed"),
    ("notices", r"\bwithdrawn, buried and posted\b", "withdrawn, marked dead and queued"),
    ("notices", r"\bhas its addressees\b", "has its recipients"),
    ("execution", r"\bare settled by what they are answered and what they alter\b", "are applied plainly, by what they are answered and what they change"),
]]

# PHRASES of the documents: pattern, replacement
DOCUMENT_PHRASES = [(re.compile(p), r) for p, r in [
    (r"\ban order (carried out|in its bounds|in which each ID|that holds a send's)", r"an action \1"),
    (r"\bwhat each order does\b", "what each action does"), (r"\bwhat the orders do\b", "what the actions do"),
    (r"\bonly what the order says\b", "only what the action says"), (r"\ba struct of the order\b", "a struct of the action"),
    (r"\bthe order comes from\b", "the action comes from"),
    (r"\bWhere a judgement ends\b", "Where a check ends"), (r"\bThe contract of a judgement\b", "The contract of a check"),
    (r"\bbetween the judgement, which only reads\b", "between the check, which only reads"),
 (r": judged, the line appended\b", ": checked, the line appended"),
]]

IDENT = re.compile(r"[^\W·][\w'′₀-₉\-·?]*")
USE = re.compile(r"^(\s*)((?:pub |ghost )?use )([^\s{;]+?)(\.\{([^}]*)\})?( as ([^\s;]+))?;?\s*$")
DECL = re.compile(r"^\s*(?:(?:pub|abbrev|unfoldable|data|record|module) +)*([^\s(){};:,.λ]+)(?: [^:=]*)? :(?: |$)")
RECORD = re.compile(r"^\s*(?:pub )?(?:record|data) ([^\s({:]+)")

root = os.path.abspath(sys.argv[1])
done = collections.Counter()
NAMED = {}
clashes = []


def path(*parts):
    return os.path.join(root, *parts)


def read(name):
    with open(name, encoding="utf-8") as file:
        return file.read()


def write(name, text):
    with open(name, "w", encoding="utf-8") as file:
        file.write(text)


def source_of(crate, name):
    """The new name of a module of a crate's code."""
    for where, old, new in SOURCES:
        if crate in where and old == name:
            return new
    return None


def sources(crate):
    """The modules of a crate's code."""
    return {module_of(n) for n in files(crate, ".rt")} - {"lib", "main"}


def kebab(name):
    return name.replace("_", "-")


def mv(old, new):
    os.makedirs(os.path.dirname(path(new)), exist_ok=True)
    subprocess.run(["git", "-C", root, "mv", old, new], check=True)
    done["moved " + old + " -> " + new] += 1


def files(crate, *kinds):
    for folder, names, found in os.walk(path("crates", crate)):
        names.sort()
        for name in sorted(found):
            if name.endswith(kinds):
                yield os.path.join(folder, name)


def present():
    return sorted(c for c in os.listdir(path("crates")) if os.path.isdir(path("crates", c)) and c not in SKIPPED)


# What each file declares ------------------------------------------------------------------------------------------------------------------

def strip(text, mark):
    return re.sub(re.escape(mark) + r".*", "", text)


def declares(text):
    found = set()
    for line in strip(text, "--").split("\n"):
        if re.match(r"\s*(use|let|in|where|pub use|pub mod)\b", line):
            continue
        for pattern in (RECORD, DECL):
            got = pattern.match(line)
            if got:
                found.add(got.group(1))
    return found


def states(name, text):
    """What a file declares, but for what the prover names in a proof."""
    found = declares(text)
    if "/proofs/" in name:
        needs = set(re.findall(r"Need-([\w'\-]+)", text))
        found = {x for x in found if x not in needs and not x.endswith("-spec")}
    return found


def module_of(name):
    return os.path.splitext(os.path.basename(name))[0]


def renamed(crate, module, name):
    for where, m, pattern, new in NAMES:
        if crate in where and m in ("*", module) and pattern.match(name):
            return pattern.sub(new, name)
    return None


def type_of(crate, name):
    for where, old, new in TYPES:
        if crate in where and old == name:
            return new
    return None


def survey():
    """For every crate and module the names to rename; the functions that each crate defines."""
    names, defined, every = {}, collections.defaultdict(dict), set()
    for crate in sorted(os.listdir(path("crates"))):
        for name in files(crate, ".rt"):
            text = strip(read(name), "//")
            for fn in re.findall(r"\bfn (\w+)", text):
                every.add(fn)
                if crate in SKIPPED:
                    continue
                for where, old, new in FUNCTIONS:
                    if old == fn and crate in where:
                        defined[crate][old] = new
        if crate in SKIPPED:
            continue
        for name in files(crate, ".antt"):
            module = module_of(name)
            for item in states(name, read(name)):
                new = renamed(crate, module, item)
                if new:
                    names.setdefault(crate, {}).setdefault(module, {})[item] = new
    for turn in range(2):  # what a module hands on by `pub use`
        for crate in present():
            for name in files(crate, ".antt"):
                for line in read(name).split("\n"):
                    got = USE.match(line)
                    owner, parts = split_path(got.group(3)) if got else (None, None)
                    if owner and owner not in SKIPPED and line.startswith("pub use") and got.group(5):
                        for item in re.split(r",\s*", got.group(5).strip()):
                            new = lookup(names, owner, parts[-1], item)
                            if new:
                                names.setdefault(crate, {}).setdefault(module_of(name), {})[item] = new
    NAMED.update(names)
    return names, defined, every


def lookup(names, crate, module, item):
    found = names.get(crate, {})
    if item in found.get(module, {}):
        return found[module][item]
    if module in found and item not in found[module]:
        pass
    for other in found.values():  # handed on by `pub use`, or a module of another name
        if item in other:
            return other[item]
    return None


def split_path(text):
    """Rattle·crate(·specs).a.b.c: the crate and the parts behind it."""
    got = re.match(r"Rattle·(\w+?)(?:·\w+)?\.(.*)$", text)
    return (got.group(1), got.group(2).split(".")) if got else (None, text.split("."))


def new_path(text, defined):
    """The path with crate, module, type and function renamed."""
    got = re.match(r"(Rattle·)(\w+?)((?:·\w+)?)((?:\.[^.{}\s]+)*)$", text)
    if not got:
        return text
    crate, parts = got.group(2), got.group(4).split(".")
    whole = list(parts)
    if crate in SKIPPED:
        return text
    for i, part in enumerate(parts):
        if i == 2 and parts[1] == "specs":
            for where, old, new in MODULES:
                if crate in where and old == part:
                    parts[i] = new
        if i == 3 and parts[1] == "specs" and "declared" not in parts:  # the constructors of a type
            parts[i] = lookup(NAMED, crate, whole[2], part) or part
        if "declared" in parts[:i] or "proofs" in parts[:i]:
            parts[i] = type_of(crate, part) or (source_of(crate, part) if i + 1 < len(parts) else None) or parts[i]
        if "proofs" in parts[:i] and part in defined.get(crate, {}):
            parts[i] = defined[crate][part]
        elif "proofs" in parts[:i] and i + 1 < len(parts):
            parts[i] = source_of(crate, part) or parts[i]
    return got.group(1) + CRATES.get(crate, crate) + got.group(3) + ".".join(parts)


# One file of the logic --------------------------------------------------------------------------------------------------------------------

def imports(text, names, crate, here):
    """The names that stand for something of ours in this file, old to new; those that are someone else's; the aliases of modules."""
    ours, others, aliases = {}, set(), {}
    for line in text.split("\n"):
        got = USE.match(line)
        if not got:
            continue
        owner, parts = split_path(got.group(3))
        if got.group(5) is None:
            if got.group(7):
                aliases[got.group(7)] = (owner, parts)
            continue
        for item in re.split(r",\s*", got.group(5).strip()):
            item, _, alias = item.partition(" as ")
            item, alias = item.strip(), alias.strip()
            new = None
            if owner and owner not in SKIPPED:
                new = lookup(names, owner, parts[-1], item)
                if "declared" in parts or parts[-1] == item:
                    new = type_of(owner, item) or new
            if alias:
                fresh = renamed(crate, "*", alias)
                if fresh:
                    ours[alias] = fresh
                else:
                    others.add(alias)
            elif new:
                ours[item] = new
            else:
                others.add(item)
    for item, new in here.items():
        ours.setdefault(item, new)
        others.discard(item)
    return ours, others, aliases


def use_line(line, names, defined):
    got = USE.match(line)
    if not got:
        return None
    owner, parts = split_path(got.group(3))
    inside = got.group(4) or ""
    if got.group(5) is not None:
        items = []
        for item in re.split(r",\s*", got.group(5).strip()):
            item, mark, alias = item.partition(" as ")
            new = None
            if owner and owner not in SKIPPED:
                new = lookup(names, owner, parts[-1], item)
                if "declared" in parts or parts[-1] == item:
                    new = type_of(owner, item) or new
            items.append((new or item, mark, alias))
        inside = ".{" + ", ".join(a + m + b for a, m, b in items) + "}"
    return got, new_path(got.group(3), defined), inside


def logic(text, crate, name, names, defined, every, here, callees):
    """A file of specs or proofs, or the ghost part of a source."""
    ours, others, aliases = imports(text, names, crate, here)
    ours = {o: n for o, n in ours.items() if o not in others}
    variables = {o: n for where, o, n in VARIABLES if crate in where and o not in others}
    fields = {o: n for where, o, n in FIELDS if crate in where}
    calls = {}
    if "/proofs/" in name:
        for fn in callees:
            calls[kebab(fn)] = kebab(callees[fn])
    known = {kebab(f) for f in every}
    needs = set(re.findall(r"Need-([\w'\-]+)", text))

    def of_need(stem):
        """A name that the prover made of a call or of a variable."""
        got = re.match(r"^(.*?)(-requires|-told)?(-?\d+)?$", stem)
        body, tail = got.group(1), (got.group(2) or "") + (got.group(3) or "")
        if body in known:
            return calls[body] + tail if body in calls else None
        parts = body.split("-")
        for i in range(1, len(parts)):
            last = "-".join(parts[i:])
            if last in known and last in calls:
                return "-".join(parts[:i]) + "-" + calls[last] + tail
            if last in variables and parts[0] in ("enum", "cast", "add", "sub"):
                return "-".join(parts[:i]) + "-" + variables[last] + tail
            if last in known:
                return None
        return None

    def token(got):
        word, at = got.group(0), got.start()
        line_start = body.rfind("\n", 0, at) + 1
        before = body[line_start:at]
        dotted = before.endswith(".")
        projected = dotted and (len(before) == 1 or before[-2] in " (")
        new = None
        if "/proofs/" in name:
            stem = word[5:] if word.startswith("Need-") else word
            if stem in needs:
                made = of_need(stem)
                if made:
                    new = ("Need-" if word.startswith("Need-") else "") + made
            if new is None:
                part = re.match(r"^([a-z][\w\-]*?)(\d*)$", word)
                if projected and part and part.group(1) in calls:
                    new = calls[part.group(1)] + part.group(2)
                tail = re.match(r"^(.*)-(spec|reads|kinds|lts)$", word)
                if new is None and tail and tail.group(1) in calls and word not in ours:
                    new = calls[tail.group(1)] + "-" + tail.group(2)
        if new is None and projected and word in fields:
            new = fields[word]
        if new is None and word in fields and re.match(r" =|\s*:", body[got.end():got.end() + 3]) and not dotted:
            new = fields[word]
        if new is None and not projected and dotted and re.search(r"([\w\-]+)\.$", before):
            alias = re.search(r"([\w\-]+)\.$", before).group(1)
            if alias in aliases and aliases[alias][0] and aliases[alias][0] not in SKIPPED:
                new = lookup(names, aliases[alias][0], aliases[alias][1][-1], word)
        elif new is None and not dotted and word in ours:
            new = ours[word]
        if new is None:
            part = re.match(r"^([a-z]+)(\d*)$", word)
            if part and part.group(1) in variables:
                new = variables[part.group(1)] + part.group(2)
        if new is None or new == word:
            return word
        done["%s: %s -> %s" % (crate, word, new)] += 1
        fresh.add(new)
        return new

    words = set(IDENT.findall(strip(strip(text, "--"), "//")))
    fresh = set()
    lines = []
    for line in text.split("\n"):
        made = use_line(line, names, defined)
        if made:
            got, where, inside = made
            alias = got.group(7) or ""
            new_alias = alias
            if alias:
                tail = re.match(r"^(.*)-(reads|kinds|lts)$", alias)
                if alias in variables and "the-variants" in got.group(3):
                    new_alias = variables[alias]
                elif tail and tail.group(1) in calls:
                    new_alias = calls[tail.group(1)] + "-" + tail.group(2)
            if got.group(5) is not None:
                for a in re.findall(r" as ([^\s,}]+)", inside):
                    if a in ours:
                        inside = inside.replace(" as " + a, " as " + ours[a])
            lines.append(got.group(1) + got.group(2) + where + inside + (" as " + new_alias if alias else "") + (";" if line.rstrip().endswith(";") else ""))
            continue
        code, mark, comment = line.partition("--")
        body = code
        code = IDENT.sub(token, code)
        lines.append(code + mark + comment)
    for new in sorted(fresh):
        if new in words and new not in KNOWN:
            clashes.append("%s: %s" % (os.path.relpath(name, root), new))
    return "\n".join(lines)


# One source -------------------------------------------------------------------------------------------------------------------------------

def regions(text):
    """The source cut into code, contract and comment pieces."""
    pieces, i, start = [], 0, 0
    while i < len(text):
        if text.startswith("//", i):
            end = text.find("\n", i)
            end = len(text) if end < 0 else end
            pieces += [("code", text[start:i]), ("comment", text[i:end])]
            i = start = end
            continue
        got = re.compile(r"\b(?:requires|ensures) \{").match(text, i)
        if got and (i == 0 or not text[i - 1].isalnum()):
            depth, j = 1, got.end()
            while depth:
                depth += {"{": 1, "}": -1}.get(text[j], 0)
                j += 1
            pieces += [("code", text[start:i]), ("contract", text[i:j])]
            i = start = j
            continue
        i += 1
    return pieces + [("code", text[start:])]


def qualified(crate, defined):
    """A call by path: crate::f or crate::module::f."""
    return {o: n for o, n in defined.get(crate, {}).items()}


def code(text, crate, defined, own):
    """The code of a source: crates, types, functions, variables, fields."""
    types = {}
    for where, old, new in TYPES:
        if crate in where:
            types[old] = new
    for owner, item in re.findall(r"\buse (\w+)(?:::\w+)*?::(\w+);", own):
        new = type_of(owner, item)
        if new:
            types[item] = new
    functions = {o: n for o, n in defined.get(crate, {}).items()}
    modules = sources(crate)
    for owner, item in re.findall(r"\buse (\w+)(?:::\w+)*?::(\w+);", own):
        if owner not in modules and item in defined.get(owner, {}):
            functions[item] = defined[owner][item]
    variables = {o: n for where, o, n in VARIABLES if crate in where}
    fields = {o: n for where, o, n in FIELDS if crate in where}

    def chain(got):
        parts = got.group(0).split("::")
        if parts[0] in ("crate", "self", "super") or parts[0] in modules:
            last = defined.get(crate, {}).get(parts[-1])
            parts[-1] = last or types.get(parts[-1], parts[-1])
            parts[:-1] = [source_of(crate, x) or x for x in parts[:-1]]
        elif parts[0] in PROTECTED:
            return got.group(0)
        elif parts[0] in types:
            parts[0] = types[parts[0]]
        else:
            owner = parts[0]
            for i in range(1, len(parts)):
                parts[i] = defined.get(owner, {}).get(parts[i]) or type_of(owner, parts[i]) or parts[i]
            parts[0] = CRATES.get(owner, owner)
        new = "::".join(parts)
        if new != got.group(0):
            done["%s: %s -> %s" % (crate, got.group(0), new)] += 1
        return new

    def single(got):
        word, at = got.group(0), got.start()
        before, behind = text[:at], text[got.end():]
        dotted = before.endswith(".") and not before.endswith("..")
        new = None
        if word in types:
            new = types[word]
        elif not dotted and word in functions and behind.startswith("("):
            new = functions[word]
        elif word in variables:
            new = variables[word]
        elif word in fields and (dotted or re.match(r"\s*:(?!:)", behind)):
            new = fields[word]
        if new is None:
            return word
        done["%s: %s -> %s" % (crate, word, new)] += 1
        return new

    text = re.sub(r"(?m)^((?:pub )?mod )(\w+);", lambda g: g.group(1) + (source_of(crate, g.group(2)) or g.group(2)) + ";", text)
    text = re.sub(r"\b\w+(?:::\w+)+\b", chain, text)
    text = re.sub(r"(?<![\w:])[A-Za-z_]\w*(?!\w|::\w)", single, text)
    return text


def source(name, crate, names, defined, every):
    text = read(name)
    ghost = "\n".join(line for line in text.split("\n") if line.startswith("ghost use"))
    out = []
    for kind, piece in regions(text):
        if kind == "comment":
            out.append(piece)
        elif kind == "contract":
            both = ghost + "\n@@@@\n" + piece
            out.append(logic(both, crate, name, names, defined, every, {}, {}).split("\n@@@@\n")[1])
        else:
            lines = []
            buffer = []
            for line in piece.split("\n"):
                if line.startswith("ghost use"):
                    if buffer:
                        lines.append(code("\n".join(buffer), crate, defined, text))
                        buffer = []
                    lines.append(logic(ghost + "\n@@@@\n" + line, crate, name, names, defined, every, {}, {}).split("\n@@@@\n")[1])
                else:
                    buffer.append(line)
            if buffer:
                lines.append(code("\n".join(buffer), crate, defined, text))
            out.append("\n".join(lines))
    return "".join(out)


# Comments and documents -------------------------------------------------------------------------------------------------------------------

def tables_of_words(names, defined):
    """Names that a comment or a document may cite, by crate and over all."""
    cited = collections.defaultdict(dict)
    for crate, found in names.items():
        for module in found.values():
            for old, new in module.items():
                cited[crate][old] = new
    for crate, found in defined.items():
        for old, new in found.items():
            cited[crate][old] = new
    for where, old, new in TYPES:
        for crate in where:
            cited[crate].setdefault(old, new)
    return cited


def protected_words():
    found = set()
    for crate in PROTECTED:
        for name in files(crate, ".rt", ".antt"):
            text = strip(strip(read(name), "--"), "//")
            found.update(re.findall(r"\bfn (\w+)", text))
            found.update(declares(text))
    return found


def comment(text, crate, cited, guarded):
    """One comment of a crate: names in backticks, names by path, names with an underscore or a hyphen; then the phrases."""
    every = {}
    for found in cited.values():
        for old, new in found.items():
            every.setdefault(old, set()).add(new)

    def name(word):
        if word in cited.get(crate, {}):
            return cited[crate][word]
        if word in every and len(every[word]) == 1 and word not in guarded:
            return next(iter(every[word]))
        return word

    def tick(got):
        inside = re.sub(r"\b(\w+)::(\w+)", by_path, got.group(1))
        return "`" + re.sub(r"(?<![:\w])[^\W\d][\w'\-]*(?!::)", lambda g: name(g.group(0)), inside) + "`"

    def by_path(got):
        owner, item = got.groups()
        if owner in SKIPPED:
            return got.group(0)
        return CRATES.get(owner, owner) + "::" + (cited.get(owner, {}).get(item) or item)

    def file(got):
        owner, module = got.group(1), got.group(2)
        for where, old, new in MODULES:
            if owner in where and old == module:
                module = new
        return CRATES.get(owner, owner) + "/specs/" + module + ".antt"

    def bare(got):
        for where, old, new in MODULES:
            if crate in where and old == got.group(1):
                return new + ".antt"
        return got.group(1) + ".antt"

    text = re.sub(r"`([^`]*)`", tick, text)
    text = re.sub(r"\b(\w+)/specs/(\w+)\.antt\b", file, text)
    text = re.sub(r"(?<![\w/])(?:specs/)?(\w+)\.antt\b", lambda g: g.group(0).replace(g.group(1) + ".antt", bare(g)), text)
    if re.match(r"^(?:--|//) [a-z]\w*(?:, [a-z]\w*)*(?::.*|\.)?$", text):  # a heading that names functions
        head, colon, rest = text.partition(":")
        text = re.sub(r"\b[a-z]\w*\b", lambda g: cited.get(crate, {}).get(g.group(0), g.group(0)), head) + colon + rest
    text = re.sub(r"\bproofs of (\w+(?:, \w+)*(?: and \w+)) cite\b", lambda g: re.sub(r"\w+", lambda h: cited.get(crate, {}).get(h.group(0), h.group(0)) if h.group(0) not in ("proofs", "of", "and", "cite") else h.group(0), g.group(0)), text)
    text = re.sub(r"\b(\w+)/src/(\w+)\.rt\b", lambda g: CRATES.get(g.group(1), g.group(1)) + "/src/" + (source_of(g.group(1), g.group(2)) or g.group(2)) + ".rt", text)
    text = re.sub(r"\b[a-z]+(?:_[a-z]+)+\b", lambda g: name(g.group(0)) if "_" in g.group(0) else g.group(0), text)
    for where, pattern, new in PHRASES:
        if crate in where:
            text = pattern.sub(new, text)
    return text


def comments(text, mark, crate, cited, guarded):
    out = []
    for line in text.split("\n"):
        at = line.find(mark)
        if at >= 0 and (at == 0 or line[at - 1] == " ") and line[at:at + 3] == mark + " ":
            line = line[:at] + comment(line[at:], crate, cited, guarded)
        out.append(line)
    return "\n".join(out)


def shorter(old, new):
    """Imports of at most 144 characters, and comments that the new names made too long wrapped again."""
    before = set(old.split("\n"))
    out = []
    for line in new.split("\n"):
        got = re.match(r"(ghost use [^{]*\{)(.*)\};$", line)
        while got and len(line) > 144:
            items, first = got.group(2).split(", "), []
            while len(got.group(1)) + len(", ".join(first + items[:1])) + 2 <= 144:
                first.append(items.pop(0))
            out.append(got.group(1) + ", ".join(first) + "};")
            line = got.group(1) + ", ".join(items) + "};"
            got = re.match(r"(ghost use [^{]*\{)(.*)\};$", line)
        out.append(line)
    lines, i = [], 0
    while i < len(out):
        j = i
        while j < len(out) and re.match(r"\s*// ", out[j]):
            j += 1
        block = out[i:j]
        if any(len(x) > 124 and x not in before for x in block):
            indent = re.match(r"\s*", block[0]).group(0)
            lines += textwrap.wrap(" ".join(x.strip()[3:] for x in block), 120, initial_indent=indent + "// ", subsequent_indent=indent + "// ", break_on_hyphens=False)
        else:
            lines += block
        if j < len(out):
            lines.append(out[j])
        i = j + 1
    return "\n".join(lines)


def edit(name, crate, names, defined, every, cited, guarded, callees):
    """A must-fail edit: its prose, its paths, its texts in the scope of the file that they are of."""
    lines = read(name).split("\n")
    out, target, where = [], None, ""
    for line in lines:
        got = re.match(r"file: (.*)$", line)
        if got:
            where = got.group(1).strip()
            target = path("crates", crate, where)
            for w, old, new in MODULES:
                if crate in w:
                    where = re.sub(r"^specs/%s\.antt$" % old, "specs/%s.antt" % new, where)
            parts = where.split("/")
            if parts[0] == "proofs":
                parts = [parts[0]] + [defined.get(crate, {}).get(p) or source_of(crate, p) or p for p in parts[1:]]
            if parts[0] == "src":
                parts[-1] = (source_of(crate, module_of(where)) or module_of(where)) + ".rt"
            out.append("file: " + "/".join(parts))
        elif target is None:
            out.append(comment(line, crate, cited, guarded))
        else:
            mark, text = re.match(r"((?:old|new): )?(.*)$", line, re.S).groups()
            whole = TEXTS.get(target, "")
            if target.endswith(".rt"):
                ghost = "\n".join(x for x in whole.split("\n") if x.startswith("ghost use"))
                if re.search(r"[≡⌜⌝λ×]", text):
                    text = logic(ghost + "\n@@@@\n" + text, crate, target, names, defined, every, {}, {}).split("\n@@@@\n")[1]
                else:
                    text = code(text, crate, defined, whole)
            elif whole:
                here = {i: lookup(names, crate, module_of(target), i) for i in states(target, whole)}
                here = {o: n for o, n in here.items() if n}
                uses = "\n".join(x for x in whole.split("\n") if USE.match(x))
                text = logic(uses + "\n@@@@\n" + text, crate, target, names, defined, every, here, callees).split("\n@@@@\n")[1]
            out.append((mark or "") + text)
    return "\n".join(out)


DOCUMENTS = ["README.md", "CONTRIBUTING.md", "docs/BUFFERS.md", "docs/DECISIONS.md", "docs/MODEL.md", "docs/PROOFS.md", "docs/RECOVERY.md", "docs/WIRE.md"]


def document(text, cited, guarded, owned, edits):
    """A document: what stands in backticks, paths, must-fail names."""
    every = {}
    for found in cited.values():
        for old, new in found.items():
            every.setdefault(old, set()).add(new)

    section = [None]

    def line_of(line):
        folder = [m for m in re.findall(r"\b(\w+)::", line)]
        head = re.match(r"\| Function of `(\w+)` ", line)
        if head:
            section[0] = head.group(1)
        elif line.startswith("#"):
            section[0] = None
        whole = line
        named = [(m.start(), m.group(1)) for m in re.finditer(r"\b(\w+)/specs/", line)]

        def by_path(got):
            owner, item = got.groups()
            if owner in SKIPPED:
                return got.group(0)
            return CRATES.get(owner, owner) + "::" + (cited.get(owner, {}).get(item) or item)

        def tick(got):
            inside = got.group(1)
            if re.fullmatch(r"\w+", inside) and inside in CRATES:
                return "`" + CRATES[inside] + "`"
            inside = re.sub(r"\b(\w+)::(\w+)", by_path, inside)

            def word(g):
                w = g.group(0)
                if w in cited.get(section[0], {}) and (whole.startswith("`") or whole.startswith("| `") and got.start() < whole.find(" | ", 2)):
                    return cited[section[0]][w]
                for owner in folder:
                    if w in cited.get(owner, {}) and w not in guarded:
                        return cited[owner][w]
                if w in every and len(every[w]) == 1 and w not in guarded:
                    return next(iter(every[w]))
                if w in guarded and w in every and folder and line.startswith("|"):
                    for owner in folder:
                        if w in cited.get(owner, {}) and got.start() < line.find("|", 1):
                            return cited[owner][w]
                return w
            return "`" + re.sub(r"(?<![:\w\-])[^\W\d][\w'\-]*(?!::)", word, inside) + "`"

        def spec(got):
            owner, module = got.group(1), got.group(2)
            for where, old, new in MODULES:
                if owner in where and old == module:
                    module = new
            return CRATES.get(owner, owner) + "/specs/" + module + ".antt"

        def bare(got):
            module = got.group(1)
            if module in owned:
                before = [c for at, c in named if at < got.start()]
                for where, old, new in MODULES:
                    if before and before[-1] in where and before[-1] not in PROTECTED and old == module:
                        return new + ".antt"
                return got.group(0)
            for where, old, new in MODULES:
                if old == module:
                    return new + ".antt"
            return got.group(0)

        line = re.sub(r"`([^`\n]*)`", tick, line)
        line = re.sub(r"\b(\w+)/specs/(\w+)\.antt\b", spec, line)
        line = re.sub(r"(?<![\w/.])(\w+)\.antt\b", bare, line)
        line = re.sub(r"\b(\w+)/src/(\w+)\.rt\b", lambda g: CRATES.get(g.group(1), g.group(1)) + "/src/" + (source_of(g.group(1), g.group(2)) or g.group(2)) + ".rt", line)
        for old, new in CRATES.items():
            line = re.sub(r"\bcrates/%s\b" % old, "crates/" + new, line)
            line = re.sub(r"(?<![\w/`])%s/(proofs|src|specs|must-fail)\b" % old, new + r"/\1", line)
            line = re.sub(r"(?<![\w/`])%s/(\w+)\b" % old, lambda g: (new if g.group(1) in edits.get(old, ()) | edits.get(new, set()) else old) + "/" + g.group(1), line)
            if old not in ("effects", "export"):
                line = re.sub(r"\bcrate %s\b" % old, "crate " + new, line)
        for pattern, new in DOCUMENT_PHRASES:
            line = pattern.sub(new, line)
        return line
    return "\n".join(line_of(line) for line in text.split("\n"))


TEXTS = {}


def main():
    names, defined, every = survey()
    cited, guarded = tables_of_words(names, defined), protected_words()
    owned = {module_of(n) for n in files("model", ".antt")} | {module_of(n) for c in PROTECTED for n in files(c, ".antt")}
    called = {}
    for crate in present():
        found = dict(defined.get(crate, {}))
        for name in files(crate, ".rt"):
            text = strip(read(name), "//")
            for owner, item in re.findall(r"\b(\w+)(?:::\w+)*?::(\w+)\b", text):
                if owner not in sources(crate) and item in defined.get(owner, {}):
                    found[item] = defined[owner][item]
        called[crate] = found
    for crate in present():
        for name in files(crate, ".rt", ".antt"):
            TEXTS[name] = read(name)
    fresh = {}
    for crate in present():
        for name in files(crate, ".rt", ".antt", ".edit"):
            if name.endswith(".rt"):
                text = comments(source(name, crate, names, defined, every), "//", crate, cited, guarded)
                text = shorter(TEXTS[name], text)
            elif name.endswith(".edit"):
                text = edit(name, crate, names, defined, every, cited, guarded, called[crate])
            else:
                whole = TEXTS[name]
                here = {i: lookup(names, crate, module_of(name), i) for i in states(name, whole)}
                here = {o: n for o, n in here.items() if n and renamed(crate, module_of(name), o)}
                text = logic(whole, crate, name, names, defined, every, here, called[crate])
                text = comments(text, "--", crate, cited, guarded)
                if os.path.basename(name) == "Lib.antt":
                    for where, old, new in MODULES:
                        if crate in where and "/specs/" in name:
                            text = re.sub(r"(?m)^((?:pub )?mod )%s$" % old, r"\g<1>" + new, text)
                    for old, new in defined.get(crate, {}).items():
                        text = re.sub(r"(?m)^((?:pub )?mod )%s$" % old, r"\g<1>" + new, text)
            fresh[name] = text
    for name, text in fresh.items():
        if text != read(name):
            write(name, text)
    # documents, tests, tools
    edits = {c: {module_of(n) for n in files(c, ".edit")} for c in os.listdir(path("crates"))}
    for name in DOCUMENTS:
        if os.path.exists(path(name)):
            text = read(path(name))
            new = document(text, cited, guarded, owned, edits)
            if new != text:
                write(path(name), new)
    rest = subprocess.run(["git", "-C", root, "ls-files", "tests", "tools", ".ci", "include", "examples", "rust"], capture_output=True, text=True).stdout.split("\n")
    for name in rest:
        if not name or not os.path.isfile(path(name)):
            continue
        try:
            text = read(path(name))
        except UnicodeDecodeError:
            continue
        new = text
        for old, to in CRATES.items():
            new = re.sub(r"\bcrates/%s\b" % old, "crates/" + to, new)
        new = re.sub(r"\bfor part in export export_journal export_recovery\b", "for part in eikelzwier eikelzwier_journal eikelzwier_recovery", new)
        if new != text:
            write(path(name), new)
            done["text of " + name] += 1
    name = path("crates.txt")
    new = re.sub(r"\w+", lambda g: CRATES.get(g.group(0), g.group(0)), "\n".join(x for x in read(name).split("\n")))
    first = read(name).split("\n")[0]
    if first.startswith("#"):
        new = "\n".join([first] + new.split("\n")[1:])
    if new != read(name):
        write(name, new)
    # files and folders
    for crate in present():
        for name in list(files(crate, ".antt")):
            short = os.path.relpath(name, root)
            if "/specs/" in short:
                for where, old, new in MODULES:
                    if crate in where and module_of(name) == old:
                        mv(short, os.path.join(os.path.dirname(short), new + ".antt"))
                        break
        for name in list(files(crate, ".rt")):
            new = source_of(crate, module_of(name))
            if new:
                short = os.path.relpath(name, root)
                mv(short, os.path.join(os.path.dirname(short), new + ".rt"))
        base = path("crates", crate, "proofs")
        for old, new in [(o, n) for where, o, n in SOURCES if crate in where]:
            if os.path.isdir(os.path.join(base, old)):
                mv(os.path.relpath(os.path.join(base, old), root), os.path.relpath(os.path.join(base, new), root))
        for folder, inner, _ in list(os.walk(base)):
            for fn in inner:
                if fn in defined.get(crate, {}):
                    here = os.path.relpath(os.path.join(folder, fn), root)
                    mv(here, os.path.join(os.path.dirname(here), defined[crate][fn]))
    for old, new in CRATES.items():
        if os.path.isdir(path("crates", old)):
            if os.path.isdir(path("crates", new)):
                print("NOT MOVED: crates/%s, since crates/%s is there" % (old, new))
            else:
                mv("crates/" + old, "crates/" + new)
    for line in sorted(done):
        print("%5d  %s" % (done[line], line))
    for line in sorted(set(clashes)):
        print("CLASH  " + line)


main()
