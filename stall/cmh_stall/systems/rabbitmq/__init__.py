"""RabbitMQ."""
from __future__ import annotations

from ..descriptor import Assumption, Descriptor, Units

SYSTEM = Descriptor(
    name="rabbitmq",
    called="RabbitMQ",
    target="[NODE]",
    manual="""Op Ar NODE
The broker of this machine, by
.Nm rabbitmqctl ,
which takes a node as its option
.Fl n .""",
    states="what rabbitmqctl prints, twice",
    by="a broker, by rabbitmqctl, or a node of it",
    shows="consumers, queues, messages at work",
    lacks="root",
    stops="nothing is stopped: rabbitmqctl asks the broker",
    needs={"rabbitmqctl": "rabbitmq-server"},
    is_once=True,
    serves=True,
    noun="service",
    units=Units(is_alone=True),
    operations="consume handle reply publish take",
    assumptions={
        "ready": Assumption(
            "the broker delivers a message that is ready to a consumer that has none",
            "a broker that is overloaded"),
        "expires": Assumption(
            "a message whose time in its queue is over is handed on to the next one",
            "a broker that drops it"),
        "moves": Assumption(
            "no message moves by itself: no queue expires, drops or hands on messages to one that is read",
            "a queue with a limit and a dead letter exchange"),
        "routed": Assumption(
            "nobody publishes to a queue but by the keys that facts name, or as the broker has counted, nor by its "
            "name", "a publisher that no state shows"),
        "acts": Assumption(
            "a service acknowledges a message only once it is done with it, does nothing by itself, as by a timer, and "
            "waits for no direct reply but of one to which its messages may have come",
            "a timer in a service, an early acknowledgement"),
        "handles": Assumption(
            "a service that has a message keeps it: the broker doesn't close its channel, as it does after its "
            "consumer_timeout, 30 minutes if nobody has set another one", "that limit"),
        "keeps": Assumption(
            "a consumer that stands by gets no message while the channel of the active one is there",
            "a channel that ends"),
        "client-alone": Assumption(
            "a client of one thread, which waits at its connection alone, does nothing before the broker sends it "
            "something: no signal comes, nobody ends it, nobody else has its socket, and that has no limit of its own",
            "a signal, a socket that was handed on"),
        "newcomers": Assumption(
            "nobody connects anew who takes messages that wait, or who knows the name that the broker has given a "
            "queue", "a new client"),
        "prompt": Assumption(
            "the broker has sent what it can: no answer, no confirm and no notice of it comes later",
            "a broker that is overloaded"),
    },
)
