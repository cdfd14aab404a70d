"""Lists the calls that the project promises: their names, by the crate that offers them, and what the sources say of each."""
import re

import sources

# The offers of each crate. A name with `::` is a function of a type or of a module, a name in lower case a function, any other a type.
SURFACE = {
    "pmg_value": "Refusal Rank Nspace::read Nspace::read_any Proc::new NodeId::new Key::read Key::read_any Value Value::string Value::bytes Value::array "
    "Value::size Value::cmp Value::write_text",
    "pmg_wire": "put_value put_proc put_key get_value get_proc get_key",
    "pmg_join": "Join Join::copy Join::join MaxU64 GrowSet RangeSet MapJoin PairJoin join_all",
    "pmg_scope": "Scope Reach includes Cache::new Cache::put Cache::own Cache::unsealed Cache::mark_sealed Batch",
    "pmg_commit": "Piece::new Piece::proc Piece::from Piece::to Piece::count Piece::entry Sealer::new Sealer::seal Sealer::seal_end Sealer::level "
    "Sealer::piece_of",
    "pmg_frame": "Signature::new FenceName::new Header::new Frame Frame::encode Frame::encode_as Stream::new Stream::feed Stream::finish Stream::copy",
    "pmg_lane": "Lane::new Lane::absorb Lane::join Lane::level Lane::read Lane::missing_after",
    "pmg_store": "Store::new Store::absorb Store::join Store::level Store::read Store::taken Store::dump Board dump_stream merge_streams",
    "pmg_jobinfo": "Registry::new Registry::register Registry::size Registry::home Registry::reserved Registry::expand",
    "pmg_pset": "Sets::new Sets::define Sets::delete Sets::members Sets::names Sets::piece_from",
    "pmg_fence": "Table::new Table::registry Table::enter Table::learn Table::gone Table::put_header Table::take_header Table::ready Table::release Table::forget",
    "pmg_dmodex": "Pending::new Pending::ask Pending::asked Pending::hold Pending::due Pending::settle Pending::request Pending::answered Marks::new "
    "Marks::copy Marks::set Marks::from",
    "pmg_get": "Mode View resolve",
    "pmg_node": "Node::new Node::commit Node::enter Node::take_release Node::ask Node::take_answer Node::deliver Node::nudge Node::terminate "
    "Node::define_set Node::delete_set Node::set_members Node::status Node::outbox Node::board Node::joined Node::copy Act Act::copy Reply Reply::copy "
    "Node::act",
    "pmg_world": "Event World::new World::step World::run World::sent World::events World::node replay",
    "pmg_publish": "publisher Publisher::publish Publisher::tell Told Viewer::learn Viewer::read Viewer::level",
    "pmg_desk": "Journal Journal::copy Transcript Transcript::copy Desk::new Desk::client Desk::deliver Desk::nudge Desk::define_set Desk::delete_set Desk::take_frames Desk::close "
    "Desk::into_journal laws::State State::act Client::put Client::commit Client::enter Client::leave Client::fence Client::get Client::get_refresh "
    "Client::take Client::get_now Client::level_now Client::in_call Client::terminate Client::transcript",
    "pmg_audit": "audit Run Run::events Run::sent Run::node Run::dump",
    "pmg_launch": "Job::read Program Program::run run run_linked Links Outcome Report",
    "pmg_commands": "run_dump run_merge",
    "pmg_app": "run_replay run_job",
}
REFUSAL = r"\b(NoMemory|BadParam|NotFound|OutsideScope|UnknownNamespace|NotMine|Busy|Terminated|NotAParticipant|TooMany|BadFrame|Exists|Collision|Stale|Unordered|Closed)\b"

FAILS = r"Refusal|Failure|Fault|Unended|AllocError|AllocFailed|RunFailed"


def exporters(crate, name):
    """Returns the crate, and the crate whose item of that name it exports again, if it does."""
    text = sources.read(f"crates/{crate}/src/lib.rt")
    for other, many, one in re.findall(r"^pub use (pmg_\w+)::(?:\{([^}]*)\}|(\w+));", text, re.M):
        if name in (it.strip() for it in (many or one).split(",")):
            yield other
    yield crate


def without_marks(text):
    """Returns a declaration in one line, without commas before a bracket and without visibility."""
    return re.sub(r",? ?([)}])", r"\1", re.sub(r"\s+", " ", text)).replace("( ", "(").replace("{ ", "{").replace("pub(crate) ", "").replace("pub ", "").strip()


def signature_at(lines, at):
    """Returns the function's declaration, without its clauses and its body."""
    found = []
    for line in lines[at:]:
        if re.match(r"\s*(requires|ensures|where)\b|\s*\{", line):
            break
        found.append(line.strip())
        if re.search(r"(\{|\{\}|;)\s*$", line):
            break
    return without_marks(re.sub(r"\s*(\{\s*\}?|;)\s*$", "", " ".join(found)))


def comment_above(lines, at):
    """Returns the words of the doc comment above the line, without the attributes between them."""
    found = []
    while at > 0 and re.match(r"\s*(///|#\[|//)", lines[at - 1]):
        at -= 1
        found.insert(0, lines[at].strip().removeprefix("///").strip())
    return " ".join(found)


def refusals_of(signature, comment):
    """Returns the refusals that a call may answer, as its result and its comment say."""
    result = signature.partition(" -> ")[2]
    if not re.search(FAILS, result):
        return "none"
    names = set(re.findall(REFUSAL, comment)) | ({"NoMemory"} if re.search(r"Alloc|RunFailed|Failure", result) else set())
    faults = ["a read fault"] * ("Reader" in signature) + ["a write fault"] * ("Writer" in signature)
    return ", ".join([f"`{it}`" for it in sorted(names)] + faults) or "any"


def members_of(lines, at, kind):
    """Returns what a type shows: its variants, its public fields or its functions; nothing if it shows only its name."""
    inside = []
    for line in lines[at + 1:]:
        if line.startswith("}"):
            break
        inside.append(line)
    pattern = {"enum": r"^    ([A-Z]\w*)", "struct": r"^    pub (\w+):", "trait": r"^    fn (\w+)"}[kind]
    names = [it[1] for line in inside if (it := re.match(pattern, line))] if not lines[at].rstrip().endswith((";", "{}")) else []
    return f": {', '.join(names)}" if names else ""


def types_named(crate, name):
    """Returns where the crate declares a type of that name, and what it shows."""
    for path in sources.files(crate, "src", ".rt"):
        lines = sources.read(path).split("\n")
        for at, line in enumerate(lines):
            found = re.match(rf"pub (enum|struct|trait) {name}\b", line)
            if found:
                yield path, at + 1, f"{found[1]} {name}{members_of(lines, at, found[1])}", "no call"


def functions_named(crate, name, functions):
    """Returns where the crate declares a function of that name, its declaration, and its refusals."""
    for it in functions:
        if it.crate == crate and it.name == name and it.exported:
            lines = sources.read(it.path).split("\n")
            signature = signature_at(lines, it.line - 1)
            yield it.path, it.line, signature, refusals_of(signature, comment_above(lines, it.line - 1))


def inherited(crate, name, functions):
    """Returns the functions of that name in traits that a type of the crate implements."""
    owner, _, method = name.partition("::")
    for path in sources.files(crate, "src", ".rt"):
        for trait in re.findall(rf"^impl (\w+) for {owner}\b", sources.read(path), re.M):
            yield from (found for it in functions if it.name == f"{trait}::{method}" for found in functions_named(it.crate, it.name, functions))


def row(crate, name, functions):
    """Returns the row of a name: where its crate has it, or the crate whose item it exports again."""
    short = name.removeprefix("laws::")
    head = short.split("::")[0]
    for other in exporters(crate, head):
        is_type = "::" not in short and short[0].isupper()
        found = [*types_named(other, short)] if is_type else [*functions_named(other, short, functions), *inherited(other, short, functions)]
        for path, line, signature, refusals in found:
            return f"| `{name}` | `{signature}` | {refusals} | `{path.removeprefix('crates/')}:{line}` |"
    raise SystemExit(f"docs/lists/surface.py: {crate} offers no {name}")


def lines(functions):
    """Returns the tables of all crates."""
    for crate, names in SURFACE.items():
        yield from ["", f"## `{crate}`", "", "| Call | Declaration | Refusals | Where |", "|---|---|---|---|"]
        yield from (row(crate, name, functions) for name in names.split())
