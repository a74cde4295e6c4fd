"""What tests know of RabbitMQ, beside its kept cases."""
import json
import re

# Of how many kept stalls the likely answer has all roots, and nobody who isn't stuck; and of how many each root as it
# is.
LIKELY, EXACT = 13, 12
# Its stalls of examples/: the folder, the words for stuck and slow, the commands, and what is said beforehand.
LIVE = {  # (a broker takes half a minute of processor time to start and to ask, so there is but one)
    "rabbitmq": ("rabbitmq", ["stuck"], ["rabbitmqctl", "epmd"],
                 "nothing is stopped"),
}
MISSING = "rabbitmqctl", "rabbitmq-server"  # a command that a look needs, and its package
# Kept stalls that are begun, looked at and cured, with the commands that they need.
CURED, CURED_BY = "alone settled ticket numbers rpc_clients rpc_threads", ["rabbitmqctl"]
NOT_COUNTED = '"statistics":"fine"', '"statistics":"coarse"'
# Changes of the state of its example: what changes, a process as it is then, the pattern, its replacement, and the
# marks around it.
CHANGES = {
    "rabbitmq": [
        ("a message that is ready in both states", "fetcher/ingest-1 unknown",
         r'("name":"credits".*"messages_ready":)0', r"\g<1>1"),
        ("a consumer that needn't acknowledge", "fetcher/ingest-1 unknown",
         r'("queue_name":"credits".*"ack_required":)true', r"\1false"),
        ("counts that aren't kept", "fetcher/ingest-1 left out", *NOT_COUNTED),
        ("a queue to which another one has published too", "notifier/search-1 any indexer/search-1 console/edge-1 "
         "other-publishers unseen-work", '"queue":"questions"', '"queue":"done"'),
        # (What its channels do is still there, so it hasn't ended.)
        ("a publisher whose line is lost", "fetcher/ingest-1 unknown", r".*indexer@search-1.*\n", ""),
        ("a service that consumes nothing", "fetcher/ingest-1 runs", r'.*"queue_name":"credits".*\n', ""),
        # (on the channel of the consumer of mails, which stands further below)
        ("a message that is at work", "mailer/edge-1 runs",
         r'("pid":("[^"]*").*"messages_unacknowledged":)0(?=(?:.*\n)*.*"mails","channel_pid":\2)', r"\g<1>1"),
    ],
}
# Values that could be more than it takes: where they stand, and what comes there.
ONCE = [
    (r'"arguments":\[\]', '"arguments":[7]'),
    (r'"client_properties":(?=\[)', '"client_properties":"","x":'),
]
OF_RABBITMQ = {
    "list_connections": {"pid": "#PID<1.90.1>", "client_properties": [["connection_name", "longstr", "bystander"]],
                         "state": "running"},
    "list_channels": {"pid": "#PID<1.90.2>", "connection": "#PID<1.90.1>", "messages_unacknowledged": 0},
    "list_consumers": {"queue_name": "bystanders", "channel_pid": "#PID<1.90.2>", "ack_required": True, "active": True,
                       "consumer_tag": "bystander"},
    "list_queues": {"name": "bystanders", "messages_ready": 0, "messages_unacknowledged": 0, "arguments": []},
    "list_bindings": {"source_name": "", "destination_name": "bystanders", "routing_key": "bystanders",
                      "destination_kind": "queue"},
    "connections": {"pid": "#PID<1.90.1>"}, "channels": {"pid": "#PID<1.90.2>", "messages_unconfirmed": 0}}


def one_more(text):
    """A connection has a consumer at a queue of its own."""
    parts = re.split(r"(?m)^(# .*\n)", text)
    for number in range(1, len(parts), 2):
        name = parts[number].replace("# rabbitmqctl", "#").split()[1]
        tree = json.loads(parts[number + 1]) if name in (*OF_RABBITMQ, "tables", "server") else None
        if tree:
            inner = tree.get("value", {}) if isinstance(tree, dict) else {name: tree}
            for key, more in OF_RABBITMQ.items():
                if inner.get(key):
                    inner[key].append({**inner[key][0], **more})
            parts[number + 1] = json.dumps(tree) + "\n"
    return "".join(parts)
