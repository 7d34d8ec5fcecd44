"""Document 01, The book of ties. It is fed which nets and file each call was lent, the tie list of an addition, and
whether the call was accepted, and never looks into parents, loads or a file's bytes. It keeps each tie with its rows
(document 02, Paper 6)."""

from .forest import ties_of


class Book:
    """For each net and file a list of ties in ranks, or none. At first all have none."""

    def __init__(self):
        self.nets = {}
        self.files = {}

    def start(self, net, accepted):
        if accepted:
            self.nets[net] = []

    def add(self, net, flat, accepted):
        if accepted and self.nets.get(net) is not None:
            self.nets[net] = self.nets[net] + ties_of(flat)

    def join(self, net, other, accepted):
        if accepted:
            mine, others = self.nets.get(net), self.nets.get(other)
            self.nets[net] = None if mine is None or others is None else mine + others

    def save(self, net, file, accepted):
        if accepted:
            self.files[file] = self.nets.get(net)

    def read(self, net, file, accepted):
        if accepted:
            self.nets[net] = self.files.get(file)
