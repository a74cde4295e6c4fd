#!/usr/bin/env python3
"""Answers the messages of a queue by themselves. usage: worker.py PORT"""
import os
import sys

import pika

connection = pika.BlockingConnection(pika.ConnectionParameters("127.0.0.1", int(sys.argv[1])))
channel = connection.channel()
channel.queue_declare("jobs")
channel.basic_qos(prefetch_count=10)


def answer(_, method, properties, body):
    channel.basic_publish("", properties.reply_to, body)
    channel.basic_ack(method.delivery_tag)


channel.basic_consume("jobs", answer)
print("ready", sys.argv[1], os.getpid(), flush=True)
channel.start_consuming()
