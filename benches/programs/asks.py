"""Asks a server of names for one. usage: asks.py PORT"""
import socket
import sys

ASKED = b"\1\2\1\0\0\1\0\0\0\0\0\0\4shop\0\0\1\0\1"
connection = socket.socket(socket.AF_INET, socket.SOCK_DGRAM)
connection.settimeout(5)
connection.connect(("127.0.0.1", int(sys.argv[1])))
for _ in range(20):
    connection.send(ASKED)
    connection.recv(512)
