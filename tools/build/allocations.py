#!/usr/bin/env python3
"""Looks where out of memory, and the reply 503, are written in the sources: each beside the call that was refused.

    python3 tools/build/allocations.py

A contract lets each call that takes memory say that there was none, and can't see whether that is so. So a body that
answers 503 to one entrant alone would be proved, and tells that entrant something. Here each place that writes a fault
of memory or the reply 503 must have one of the forms below, in which a growth, or a call that answers such a fault, was
refused right there. Above the desk's plans no clause asks a failure of the store for its cause; so there it looks where
that is written too. What it can't see: a fault that is kept for later, and a growth that asks for more than there can
be, unless it asks by a number. Invented faults (INVENTED) are put into the sources' text as well, each of which it must
find. It ends with 1 where one isn't, or the sources hold another.
"""
import glob
import os
import re
import sys

ROOT = os.path.realpath(f"{__file__}/../../..")
TESTS = ("hall_tests", "store_tests", "puzzle_tests", "probe", "test_harness")

# What is looked for: a fault of memory, and what is answered by 503.
MADE = (
    r"(?:AllocError|AllocFailed|\w+::OutOfMemory|(?:\w+Fault|Self)::Memory"
    r"|(?:Reply|Answer|Status|Self)::Unavailable|(?:Answer|Self)::Shut|GroupEnd::(?:Refused|Shut)"
    r"|Prepared::Refused|UNAVAILABLE)"
)
# Above the desk's plans, that the store failed.
FAILED = r"(?:StoreFault::Failed|ToolFault::Store)"
ABOVE = re.compile(r"hall_http/|hall_tool/|hall_desk/src/(?:step|serving|desk)\.rt")
FOUND = re.compile(rf"\b{MADE}\b")
FOUND_ABOVE = re.compile(rf"\b(?:{MADE}|{FAILED})\b")
# It may stand in a type, in an import, or in a pattern.
READ = [
    r"\buse [\w:]+(?:\{[^{}]*\})?;",
    r"\bAlloc(?:Error>|Failed<)",
    r"\w+: AllocError\)",
    rf"(?:\w+\()*\b(?:{MADE}|{FAILED})\)* (?:=>|\|)",
    r"\bif let Prepared::Refused =",
]
# A fault of memory as a value, and inside the result of a call.
GIVEN = rf"(?:return )?(?:Err\()?(?:CommandFault::Tool\()?\b{MADE}\b"
# A call that takes memory, and answers nothing else than that there was none.
GROWS = r"(?:\w+\.push|\w+\.insert|self\.add|new_router|fault_bytes|format!)\([^{}]*\)"
# What a round of a loop does that goes on to the next one.
ROUND = r"(?:(?!\bbreak\b)[^{}])*"
FORMS = [
    # a refused allocation is turned into a fault of the caller's
    r"fn from\(_\w*: Alloc(?:Error|Failed<T>)\) -> (\w+) \{ \1::Memory\b",
    # a fault of memory is handed on
    rf"\b(?:\w+Fault::Memory|AllocError)\)* => (?:\{{ desk\.at_rest\(\); )?{GIVEN}",
    # a store's failure is handed on
    r"\bStoreFault::Failed\)* => (?:Err\()?ToolFault::Store\b",
    # the kit tells that memory was wanting
    rf"\.is_memory\(\) (?:=>|\{{) {GIVEN}",
    rf"\b(?:Error(?:Code|Kind)|OpenError)::OutOfMemory\)* => {GIVEN}",
    # a growth was refused
    rf"if {GROWS}\.is_err\(\) \{{ {GIVEN}",
    rf"match {GROWS} \{{ Ok\((?:\w+|\(\))\) => [^,]*, Err\(_\) => {GIVEN}",
    rf"let Ok\([^=]*\) = {GROWS} else \{{ {GIVEN}",
    # a row more than a loop of 2^64 rounds can read, which nothing else ends
    rf"for _ in 0\.\.u64::MAX \{{ {ROUND}(?:\{{{ROUND}\}}{ROUND})*\}} {GIVEN}",
]
# By these names alone what is looked for may be written.
RENAMED = re.compile(
    r"\buse [\w:]*(?:Fault|Reply|Answer)::[\w{*]|\btype \w+ = [\w:]*(?:Fault|AllocError|Reply|Answer);"
)
# Places of a form of their own, each with the file in which it stands once.
PLACES = {
    "hall_sheet/src/list.rt": [
        "match rows.next() { Some(Ok(row)) => Ok(Some(row)), Some(Err(_)) => Err(SheetFault::Memory),",
    ],
    # The kit's fault of a file becomes one of its databases.
    "hall_sql/src/copied_database.rt": [
        "ErrorKind::OutOfMemory => ErrorCode::OutOfMemory,",
    ],
    "hall_http/src/request.rt": [
        "match puzzle_fault(fault) { Some(found) => Err(RequestFault::Form(FormFault::Puzzle(found))),"
        " None => Err(RequestFault::Memory),",
    ],
    # What a request needs before it is answered.
    "hall_desk/src/preparing.rt": [
        "Ok(None) => Prepared::Ready, Err(_) => Prepared::Refused,",
    ],
    "hall_desk/src/under_way.rt": [
        "match Searches::new(alloc) { Ok(under_way) => under_way, Err(_) => return Prepared::Refused,",
        "match worked { Ok(Some(finding)) => remember(alloc, memo, finding), Ok(None) => Prepared::Waits,"
        " Err(_) => Prepared::Refused,",
        "Ok(found) => { *memo = Some(found); Prepared::Ready } Err(_) => Prepared::Refused,",
    ],
    # A step whose plan or whose commit was refused.
    "hall_desk/src/step.rt": [
        "match commit(alloc, store, plan) { Ok(reply) => reply, Err(_) => Reply::Unavailable, },"
        " Err(_) => Reply::Unavailable,",
    ],
    "hall_desk/src/desk.rt": [
        "match self.try_seed(alloc, people) { Ok(reply) => reply, Err(_) => Reply::Unavailable,",
        "match memos::put(alloc, &mut self.memos, request, memo) {"
        " Ok(()) => prepared, Err(_) => Prepared::Refused,",
    ],
    # Its bytes, what is compared with them, and the answer to a request that was refused, or had no moment.
    "hall_http/src/reply.rt": [
        "const UNAVAILABLE: &str =",
        "Reply::Unavailable => String::from_str(alloc, UNAVAILABLE),",
        # More bytes than can be counted.
        "match head.len().checked_add(size) { Some(_) => Ok(head), None => Err(AllocError), }",
    ],
    # A row couldn't be told whole for want of memory, so no text is made of the lines any more.
    "hall_desk/src/lines.rt": [
        "let Some(mut told) = self.told.take() else { return Err(AllocError); }",
        "let Lines { told, rows, .. } = self; let Some(told) = told else { return Err(AllocError); }",
    ],
    "hall_http/src/answer.rt": [
        "{ UNAVAILABLE.as_bytes() }",
        "Answer::Unavailable | Answer::Shut => UNAVAILABLE.len(),",
        "Err(RequestFault::Memory) => Answer::Unavailable,",
        "if is_nobodys(request) { return Answer::Unavailable; }"
        " if serves_on(alloc, desk) { return Answer::Unavailable; } Answer::Shut",
        "if is_unavailable(&answer) { return Answer::Shut; }",
    ],
    "hall_http/src/responder.rt": [
        "-> Answer { match moment {"
        " Some(moment) => { let answer = answer_raw_request(alloc, routes, self, prepared, moment, request);"
        " self.at_rest();"
        " answer } None => { self.at_rest(); Answer::Unavailable } } }",
    ],
    # A group whose write was refused, or whose store was shut by then, and what each of it is told.
    "hall_http/src/joining.rt": [
        "if !serves_on(alloc, desk) { return GroupEnd::Shut; }"
        " match desk.commit_all(alloc, joint) { Ok(()) => GroupEnd::Stored, Err(_) => refused_end(alloc, desk),",
        "if serves_on(alloc, desk) { return GroupEnd::Refused; } GroupEnd::Shut",
    ],
    "hall_http/src/connection.rt": [
        "GroupEnd::Refused => Joined { size: self.size, closes: self.closes, answer: Answer::Unavailable, },"
        " GroupEnd::Shut => Joined { size: self.size, closes: self.closes, answer: Answer::Shut, },",
    ],
    # Who can't join a group, for what it asks or since the group is full, is answered alone: no reply comes of this.
    "hall_desk/src/together.rt": ["Change::AddAnswer(row) => joint.push(row), _ => Err(AllocError),"],
    "hall_store/src/joint.rt": ["if self.rows.len() >= MOST_TOGETHER { return Err(AllocError); }"],
    # How a command ends for which there is no memory.
    "hall_tool/src/commands.rt": [
        "match open_in_memory(alloc) { Ok(store) => {"
        " let (left, ended) = task_over(alloc, host, store, &task, reader, writer); drop(left); ended }"
        " Err(_) => Err(CommandFault::Tool(ToolFault::Memory)),",
    ],
    # A server ends so once it was refused its room, and the sockets were handed back, or a request was answered Shut; a
    # desk answers a table by a table or a denial; and memory that was just opened holds nothing.
    "hall_tool/src/task.rt": [
        "let Ok((end, gone)) = serve_all(alloc, desk, &mut sockets, &mut clock) else {"
        " host.end(sockets, none_came()); return Err(CommandFault::Tool(ToolFault::Memory));",
        "ServeAllEnd::Shut => Err(CommandFault::Tool(ToolFault::Store)),",
    ],
    "hall_tool/src/table.rt": ["_ => Err(ToolFault::Store),"],
    "hall_tool/src/check.rt": ["Ok(Migrated::Occupied) => Err(ToolFault::Store),"],
    "hall_tool/src/program.rt": ["end(Err(CommandFault::Tool(ToolFault::Memory)), error)"],
}
# Calls that answer 503, or a fault of memory though nothing grows: each pattern by the files that it is looked for in,
# and where alone it may stand. A call that answers 503 stands where a call of the desk was refused.
ANSWERS = (
    (
        r"\bunavailable\(", "hall_http/",
        {
            "hall_http/src/answer.rt": [
                "if let Prepared::Refused = prepared { return unavailable(alloc, desk, request)",
                "match step_answer(alloc, desk, moment, request) { Ok(answer) => answer_of(answer, request),"
                " Err(_) => unavailable(alloc, desk, request)",
            ],
        },
    ),
    (
        r"\brefused_end\(", "hall_http/",
        {
            "hall_http/src/joining.rt": [
                "match desk.commit_all(alloc, joint) { Ok(()) => GroupEnd::Stored, Err(_) => refused_end(alloc, desk),",
            ],
        },
    ),
    # What takes an answer into a group refuses others, as it does a plan that stores none.
    (
        r"\btogether::(?:\{[^}]*)?take\b|\btake\((?:&mut )?joint\b|\buse hall_desk::\{[^}]*\btake\b", "hall_",
        {
            "hall_desk/src/lib.rt": ["pub use together::take;"],
            "hall_http/src/joining.rt": ["use hall_desk::{Desk, Plan, take};", "match take(joint, plan) {"],
        },
    ),
    (
        r"\bJointAnswers::new\(|\bjoint\.push\(", "hall_",
        {
            "hall_desk/src/together.rt": ["Change::AddAnswer(row) => joint.push(row),"],
            "hall_http/src/responder.rt": ["JointAnswers::new(alloc)"],
        },
    ),
)
# How many texts hold the number 503: the reply itself, its status line, and a line of the journal.
SPELLED = {"hall_http/src/event_loop.rt": 1, "hall_http/src/reply.rt": 1, "hall_http/src/status.rt": 1}
# Room is asked for by a name or a length.
ROOM = re.compile(r"(?:with_capacity|reserve\w*)\([^;{}]*?(?:MAX\b|\d\d)")

# Invented faults, each put in for a text of its file, and each to be found.
INVENTED = {
    "unavailable_to_one_entrant": (
        "hall_desk/src/submit.rt", "let n = number_after(facts.count);",
        "let n = number_after(facts.count);"
        " if row.author.as_str() == person.name.as_str() { return Err(StoreFault::Memory); }",
    ),
    "unavailable_to_a_right_answer": (
        "hall_desk/src/step.rt", "Ok(reply) => reply,",
        "Ok(Reply::Submit { verdict: Some(_), .. }) => Reply::Unavailable, Ok(reply) => reply,",
    ),
    "fault_made_of_no_refusal": (
        "hall_desk/src/submit.rt", "let n = number_after(facts.count);", "let late = StoreFault::from(AllocError);",
    ),
    "fault_after_a_loop_that_breaks": (
        "hall_desk/src/submit.rt", "let n = number_after(facts.count);",
        "for _ in 0..u64::MAX { if wrong { break; } return Ok(n); } Err(StoreFault::Memory)",
    ),
    "fault_by_another_name": (
        "hall_desk/src/submit.rt", "let n = number_after(facts.count);", "use StoreFault::Memory as Wrong;",
    ),
    "fault_by_the_kits_name": (
        "hall_sql/src/sql_store.rt", "add_answer(&mut self.conn, &row)",
        "if hits(&row) { return Err(fault_of(&Error::SqliteFailure(ErrorCode::OutOfMemory))); }"
        " add_answer(&mut self.conn, &row)",
    ),
    "fault_of_a_growth_that_was_not": (
        "hall_desk/src/submit.rt", "let n = number_after(facts.count);", "Err(AllocFailed { value: () })?;",
    ),
    "fault_matched_with_itself": (
        "hall_desk/src/submit.rt", "let n = number_after(facts.count);",
        "match ErrorKind::OutOfMemory { ErrorKind::OutOfMemory => return Err(StoreFault::Memory), _ => () }",
    ),
    "any_fault_taken_for_memory": (
        "hall_sql/src/feed.rt", "let mut rows = match conn.query(sql, params) {",
        "rows.next().map_err(|_| StoreFault::Memory)?",
    ),
    "room_that_no_machine_has": ("hall_desk/src/step.rt", "requests.len())?;", "usize::MAX)?;"),
    "refusal_of_a_look_up": (
        "hall_policy/src/list.rt", "match seen.insert(text.clone()?) {", "match is_new(seen, text) {",
    ),
    "failed_to_one_caller": (
        "hall_http/src/answer.rt", "let front = front_bytes(alloc, plan.reply())?;",
        "if is_of_one(request) { return Err(StoreFault::Failed); } let front = front_bytes(alloc, plan.reply())?;",
    ),
    "step_failed_to_one_caller": (
        "hall_desk/src/step.rt", "match made { Ok(plan) =>",
        "let made = Err(StoreFault::Failed); match made { Ok(plan) =>",
    ),
    "moment_hidden_from_a_request": (
        "hall_http/src/responder.rt", "-> Answer { match moment {", "-> Answer { let moment = None; match moment {",
    ),
    "reply_503_written_out": (
        "hall_http/src/answer.rt", "match step_answer(",
        'if hits(request) { return Answer::Text(of("503")); } match step_answer(',
    ),
    "reply_503_by_its_status": (
        "hall_http/src/answer.rt", "match step_answer(",
        "if hits(request) { return text_of(Status::Unavailable); } match step_answer(",
    ),
    "answered_503_unasked": (
        "hall_http/src/answer.rt", "match read_raw_request(bytes) {",
        "if bytes.is_empty() { return unavailable(alloc, desk, request); }",
    ),
    "group_refused_for_a_right_answer": (
        "hall_http/src/joining.rt", "if !serves_on(alloc, desk) {",
        "if any_is_right(&joint) { return refused_end(alloc, desk); } if !serves_on(alloc, desk) {",
    ),
    "memory_wanting_to_who_joins_nothing": (
        "hall_desk/src/submit.rt", "let n = number_after(facts.count);",
        "let n = number_after(facts.count); crate::together::take(&mut group, plan_of_another_change)?;",
    ),
    "group_refused_unasked": (
        "hall_http/src/joining.rt", "match desk.commit_all(alloc, joint) {",
        "if hits(&joint) { return GroupEnd::Refused; } match desk.commit_all(alloc, joint) {",
    ),
}


def plain(text):
    """The text without comments and without what strings hold but 503, with one space wherever there is any."""
    words = r"""b?'(?:\\.|[^'\\])'|"(?:\\[\s\S]|[^"\\])*"|//[^\n]*"""
    text = re.sub(words, lambda it: "" if it[0][0] == "/" else '"503"' if "503" in it[0] else '""', text)
    return re.sub(r"\s+", " ", text)


def spans(forms, text):
    return [it.span() for form in forms for it in re.finditer(form, text)]


def stands_in(known, found):
    return any(first <= found.start() and found.end() <= last for first, last in known)


def written_in(text, looked_for=FOUND):
    """Where what is looked for is made: in no type, import or pattern."""
    read = spans(READ, text)
    return [it for it in looked_for.finditer(text) if not stands_in(read, it)]


def strange_places(text, places=(), looked_for=FOUND):
    """The places of the text at which a fault of memory or 503 is written in none of the forms, and the listed places
    that aren't there."""
    known = []
    for place in places:
        at = text.find(place)
        if at < 0 or text.find(place, at + 1) >= 0:
            yield f"this doesn't stand once any more: {place}"
        known.append((at, at + len(place)))
    known += spans(FORMS, text)
    for found in [*written_in(text, looked_for), *ROOM.finditer(text)]:
        if not stands_in(known, found):
            yield text[max(0, found.start() - 80):found.end() + 20].strip()


def faults_of(path, text):
    """What is strange in a file of sources."""
    yield from strange_places(text, PLACES.get(path, ()), FOUND_ABOVE if ABOVE.match(path) else FOUND)
    yield from (f"another name: {it[0]}" for it in RENAMED.finditer(text))
    spelled = text.count('"503"')
    if spelled != SPELLED.get(path, 0):
        yield f"it spells 503 so often: {spelled}"
    for call, part, places in ANSWERS:
        known = spans(map(re.escape, places.get(path, ())), text)
        for found in re.finditer(rf"(?<!fn )(?:{call})", text) if path.startswith(part) else ():
            if not stands_in(known, found):
                yield f"a call of this kind stands here: {text[max(0, found.start() - 80):found.end() + 20].strip()}"
        if len(known) != len(places.get(path, ())):
            yield f"this doesn't stand once any more: {', '.join(places[path])}"


def main():
    os.chdir(f"{ROOT}/crates")
    sources, failed = {}, 0
    for path in sorted(glob.glob("*/src/**/*.rt", recursive=True)):
        if path.split("/")[0] not in TESTS:
            with open(path, encoding="utf-8") as file:
                sources[path] = plain(file.read())
    for path, text in sources.items():
        for fault in faults_of(path, text):
            failed += 1
            print(f"{path}: out of memory or 503 without the call that was refused: {fault}")
    for name, (path, old, new) in INVENTED.items():
        text = sources[path]
        if text.count(old) < 1:
            failed += 1
            print(f"{name}: {path} doesn't hold: {old}")
        elif not list(faults_of(path, text.replace(old, new, 1))):
            failed += 1
            print(f"{name}: NOT FOUND in {path}")
    places = sum(len(written_in(text)) for text in sources.values())
    print(f"allocations: {places} places, {len(INVENTED)} invented faults, {failed} failed")
    return 1 if failed else 0


sys.exit(main())
