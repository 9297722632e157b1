"""Which rows and trials call which commands."""


def pairs_of(reach):
    """Words as `flight_tools:check,try` as pairs of a program and its commands; none means all."""
    return [(program, commands.split(",") if commands else []) for program, _, commands in (it.partition(":") for it in reach)]


def calls_of(case):
    """What a case calls, as pairs of a program and the command."""
    return {tuple(call.partition(" ")[::2]) for call in case.commands()}


def is_reached(case, pairs):
    """Whether a case calls one of these commands."""
    return any(program == wanted and (not commands or command in commands) for program, command in calls_of(case) for wanted, commands in pairs)


def commands_called(program, cases, pairs):
    """The commands of a program that are called by the cases that call one of these."""
    return {command for case in cases if is_reached(case, pairs) for its, command in calls_of(case) if its == program}
