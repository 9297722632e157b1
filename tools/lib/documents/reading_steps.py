"""The steps in which a reviewer reads what the contract of `run` claims: each with its title, what it is about, and the modules of
definitions, below crates/lc_model/specs/ if a path does not begin with `crates/`."""

STEPS = [
    (
        "The headline",
        "The contract of `run` in `crates/flight_core/src/running.rt`, and its promises, one field each, in `Promises.antt`. The other modules have its terms: what a run is, what a host is, what an executive keeps.",
        """crates/flight_core/specs/Promises.antt crates/flight_core/specs/Run.antt crates/app_host/specs/Object.antt crates/app_host/specs/Hosted.antt
        crates/app_host/specs/Whole.antt crates/host_refinement/specs/Keeping.antt Kept/Executive.antt Kept/Summary.antt
        Kept/Effort.antt""",
    ),
    (
        "How a run ends (`is_run`)",
        "Devices, endings, missions, and what is called for.",
        "Device.antt Host/Outcome.antt crates/flight_core/specs/Ending.antt Host/Promise.antt",
    ),
    (
        "What is written (`by_texts`, `by_bytes`)",
        "Records; the world, and what records do to it; the packets of a run; headers, numbers, commands, names, refusals and counts.",
        """Host/Stream.antt Host/World.antt Host/React.antt Host/Schedule.antt Host/Run.antt Packet.antt Bytes.antt Command.antt
        Name.antt Refusal.antt Count.antt""",
    ),
    (
        "What the Limit Checker does with a packet",
        "Its steps, its watchpoints, its history and its reactions; then fields, truth, conditions and rules.",
        """LimitChecker/Steps.antt LimitChecker/Watch.antt LimitChecker/Past.antt LimitChecker/Reaction.antt Field.antt Truth.antt
        Condition.antt Rule.antt""",
    ),
    ("Which packets leave", "Requests, logs and event packets.", "Events/Request.antt Events/Log.antt Events/Outgoing.antt"),
    (
        "What a table says",
        "The host's questions and their answers; slots, halves and pairs; bytes; which texts compile.",
        """Tables/Interpretation.antt Tables/HalvesAndBytes.antt Tables/Slot.antt Tables/Half.antt Tables/Spelled.antt Tables/File.antt
        Tables/Image.antt Tables/Entry.antt Tables/Equation.antt Codes.antt Tables/Edition.antt Tables/Compiling.antt
        Tables/InForce.antt""",
    ),
    (
        "What a rule text says",
        "How a text is read, and below it tokens, grammar and meaning.",
        "Text/Reading.antt Text/Token.antt Text/Class.antt Text/Grammar.antt Text/Syntax.antt Text/Meaning.antt",
    ),
    (
        "Failing devices, and commands that change no request (`failures`, `asides`, `asides_in_bytes`)",
        "What stays true if a device fails; which commands leave the sequence requests as they are.",
        "Laws/Runs.antt crates/flight_core/specs/Failures.antt Laws/Isolation.antt crates/flight_core/specs/Asides.antt",
    ),
    (
        "Which texts a run refuses (`refuses`, `named`)",
        "Fitting texts, faults, and the number that is out of its range.",
        """crates/flight_core/specs/Fitting.antt crates/flight_core/specs/Compiled.antt crates/rpn_compiler/specs/Naming.antt
        crates/field_checker/specs/Number.antt crates/rpn_compiler/specs/Fault.antt crates/field_checker/specs/Fault.antt
        crates/rule_parser/specs/What.antt crates/rule_parser/specs/Front.antt""",
    ),
    (
        "A run with any applications in stock (`reasons`)",
        "What a record brings; one step of a host; calls of any application; the services; the host in numbers.",
        """crates/flight_core/specs/Steps.antt crates/flight_core/specs/Brought.antt crates/rpn_compiler/specs/Pair.antt Tables/Lowering.antt
        crates/app_host/specs/Response.antt crates/app_host/specs/Obeyed.antt crates/app_host/specs/ObeyedTables.antt
        crates/app_host/specs/Roster.antt crates/app_host/specs/Turn.antt crates/app_host/specs/Heard.antt
        crates/app_host/specs/Delivered.antt crates/app_host/specs/Step.antt crates/app_host/specs/Party.antt
        crates/app_host/specs/Calls.antt crates/app_host/specs/Objects.antt crates/app_host/specs/Left.antt crates/app_host/specs/Load.antt
        crates/app_host/specs/Writing.antt crates/app_host/specs/Shared.antt Services/Interface.antt Services/Bus.antt Services/Events.antt
        Services/Tables.antt Services/Seen.antt Services/Settled.antt Kept/Call.antt Kept/Next.antt Kept/GoesWith.antt
        Kept/Stations.antt""",
    ),
]


def path_of(name):
    """The path of a module from the repository's top."""
    return name if name.startswith("crates/") else f"crates/lc_model/specs/{name}"


def named():
    """The paths of all modules, in reading order."""
    return [path_of(name) for _, _, names in STEPS for name in names.split()]


def page(found):
    """The page with all steps, and with the definitions of each module that are reached."""
    lines = [
        "# Reading order: from the headline to the ground",
        "",
        "Every module of definitions that the contract of `run` reaches, in the order in which to read it, with the definitions that are reached. Written by `tools/gate/reading_order --write`, which also checks that no module is missing.",
    ]
    for number, (title, about, names) in enumerate(STEPS, 1):
        lines += ["", f"## {number}. {title}", "", about, ""]
        lines += [f"- `{path_of(name)}`: {', '.join(found.get(path_of(name), []))}" for name in names.split()]
    return "\n".join([*lines, ""])
