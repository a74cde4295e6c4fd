"""What tests know of Erlang, beside its kept cases."""
import re

from changes import APART

from cmh_stall.core.sketch import SYSTEM

# Of how many kept stalls the likely answer has all roots, and nobody who isn't stuck; and of how many each root as it
# is.
LIKELY, EXACT = 98, 95
# Its stalls of examples/: the folder, the words for stuck and slow, the commands, and what is said beforehand.
LIVE = {
    "erlang": ("erlang_pool", ["stuck", "slow"], ["erl", "erlc", "epmd"],
               "no process is held"),
    "elixir": ("elixir", ["stuck", "slow"], ["erl", "erlc", "epmd", "elixirc"],
               "no process is held"),
}
MISSING = "erl", "erlang-nox"  # a command that a look needs, and its package
# Kept stalls that are begun, looked at and cured, with the commands that they need.
CURED, CURED_BY = """
        accounts bank_stuck exchange_stuck keeper_stuck vault_older report waiter journal dispatch passed_to_stuck
        pool_of_two letters_crossed moving_crossed stamps beside_port ticking_shelf piped_lost synced_lost
        linked_trapping naps""", ["erl", "erlc", "epmd", "elixirc"]
DESK, AUDITOR = ((head, "\n=process", True) for head in ("<0.92.0> front", "<0.97.0> back"))
AWAITS = "=process <0.103.0> ", "\n=process", True
# Changes of the state of its example: what changes, a process as it is then, the pattern, its replacement, and the
# marks around it.
CHANGES = {
    "erlang": [
        ("a call with a limit", "front/desk/0.92.0 runs", r"^y\(0\) *infinity", "y(0)     5000", DESK),
        ("a call of a state machine", "front/desk/0.92.0 any back/billing",
         "gen_server:call/3", "gen_statem:call_dirty/4", DESK),
        ("a wait that isn't known", "front/desk/0.92.0 unknown", "gen_server:call/3", "shop:call/3", DESK),
        ("a call of a process that isn't in the state", "front/desk/0.92.0 unknown",
         "{process,{billing", "{process,{ledger", DESK),
        ("a request that is no more where it was sent to", "front/orders any",
         r"(#Ref<[\d.]+\.)(\d+>)", r"\g<1>9\2", ("=process <0.89.0> back", "\n=process", True)),
        ("a request that another one has at work", "front/desk/0.92.0 any", r"(y\(4\) .*<\d+\.92\.0>.*\.)(\d+>)",
         r"\g<1>9\2"),
        ("a reference that another one has too", "back/buyer/0.96.0 any back/stock back/mailer",
         r"(<0\.96\.0>,)(#Ref<[\d.]+>)((?:.*\n)*?)({registered_name,mailer}\n{initial_call.*\n{dictionary,\[)",
         r"\1\2\3\4\2,"),
        ("a receive without a limit", "back/mailer unknown", r"^({shop,post_office,1,)\[60000\]}", r"\1[infinity]}"),
        ("an answer from one of two", "back/auditor/0.97.0 runs",
         r"(?s)^\{messages,\[\]\}(.*?#\{(#Ref<[0-9.]*>))", r"{messages,[{[alias|\2],{balance,1}}]}\1", AUDITOR),
    ],
    "elixir": [
        ("a task with a limit", "web/Shop.Cart/7 runs", r"^(y\(1\) +)infinity", r"\g<1>5000", AWAITS),
        ("a task that isn't there", "web/Shop.Cart/7 unknown", r"pid=><0.105.0>", "pid=><0.1050.0>", AWAITS),
        ("the answer of a task", "web/Shop.Cart/7 runs", r"(?s)^\{messages,\[(.*?y\(0\) +(#Ref<[0-9.]*>))",
         r"{messages,[{\2,ok},\1", AWAITS),
        ("a call of an agent with a limit", "web/Shop.Stock runs", r"^(y\(0\) +)infinity", r"\g<1>5000",
         ("'Elixir.Shop.Stock'", "\n=process", True)),
        ("a stream with a limit", "web/report runs", "timeout=>infinity", "timeout=>5000",
         ("{registered_name,report}", "\n=process", True)),
    ],
}
# Values that could be more than it takes: where they stand, and what comes there.
ONCE = [
    (r"(?<=<0\.)\d+", "9" * 5000),
]
OF_ERLANG = f"""=process <0.{APART}.0> NODE
{{references,[]}}
{{may_end,[]}}
{{closures,false}}
{{code,[]}}
{{registered_name,bystander}}
{{initial_call,{{bystander,run,0}}}}
{{dictionary,[]}}
{{monitors,[]}}
{{links,[]}}
{{trap_exit,false}}
{{current_stacktrace,[{{timer,sleep,1,[]}},{{bystander,run,0,[{{file,"bystander.erl"}},{{line,7}}]}}]}}
{{message_queue_len,0}}
{{messages,[]}}
{{status,waiting}}
Program counter: 0x00007f3cba6583ac (timer:sleep/1 + 348)

0x00007f3cb8746730 Return addr 0x00007f3cba656934 (bystander:run/0 + 204)

0x00007f3cb8746740 Return addr 0x00007f3cba200c30 (<terminate process normally>)
{{reductions,14}}
"""


def shows(text, process):
    """A process has a text with its name or pid and its call, or the function of its receive; one that waits by the
    system's own reasons has the reference, the pid or the lock there that it waits for. If no process has its name, as
    with one of a registry, it is any of them."""
    name = process.name.split("/")[-1]
    own = re.escape(name)
    mark = rf"=process <{own}> " if re.fullmatch(r"[\d.]+", name) else rf"registered_name,(?:{own}|'Elixir\.{own}')}}"
    blocks = re.findall(r"^=process [^=]*(?:=(?!process |left out |end )[^=]*)*", text, re.M)
    wanted = process.objects[-1] if SYSTEM in process.because else process.operation.split(":")[-1].split(" ")[-1]
    if process.operation.split(" ")[0] == "GenServer.call" and SYSTEM not in process.because:
        wanted = "'Elixir.GenServer':call/3"
    if wanted == "receive":
        wanted = re.sub(r"(\w+):(\w+)/(\d+).*", r"{\1,\2,\3,", process.frames[0])
    return any(wanted in it for it in [it for it in blocks if re.search(mark, it)] or blocks)


def one_more(text):
    """Each node has one, with the items that its others have, before what counts its processes."""
    block = "".join(row for row in OF_ERLANG.splitlines(True) if row[0] != "{" or f"\n{row.partition(',')[0]}," in text)
    return re.sub(r"^=end (\d+) (\S+)$",
                  lambda end: f"{block.replace('NODE', end[2])}=end {int(end[1]) + 1} {end[2]}", text, flags=re.M)
