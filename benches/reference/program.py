"""The program: copy, inside and run, over a folder."""
from faults import KINDS, Ended, Failed, NotMade, OpenEdge, Over, ScriptFault, TextFault
from command_line import parsed
from grid import written
import inspections
from kernels import Exact, Grid
from limits import Limits, keep_within
from mesh import checked
from obj import obj_text, read_obj
import operations
import outlines
from remeshing import remesh
from scripts import read_script
import solids
from stl import read_stl, stl_text
from texts import format_of
from tidying import tidy
from windings import inside


def limit_line(fault):
    """The end of a run that exceeds a limit."""
    return Ended(5, b"limit %s %d" % (fault.what.encode(), fault.seen))


def fault_line(status, name, fault):
    """The end of a run over a line that is at fault."""
    return Ended(status, b"%s:%d: %d %s" % (name, fault.line, fault.kind, KINDS[fault.kind]))


class Program:
    """One run: reads and writes files of a folder, and says lines."""

    def __init__(self, folder, say, limits=Limits()):
        self.folder, self.say, self.limits = folder, say, limits
        self.kernels, self.held = Grid(), {}

    def run(self, words):
        """Does what the words ask. It ends with a status and a line where something is wrong."""
        command, operands, digits = parsed(words)
        if command == b"copy":
            self.copy(*operands, digits)
        elif command == b"inside":
            self.say(b"winding %d" % inside(self.read_mesh(operands[0], digits), operands[1:]))
        else:
            self.run_script(operands[0], digits)

    def copy(self, source, target, digits):
        """Reads a mesh, writes it, and says so."""
        mesh = self.read_mesh(source, digits)
        self.write_mesh(target, mesh, digits)
        self.say(b"copied %s: points %d, triangles %d, unused %d"
                 % (target, len(mesh.points), len(mesh.triples), mesh.unused))

    def ask(self, name):
        """The bytes of a file."""
        try:
            data = self.folder.read(name, self.limits.file_bytes)
        except Failed:
            raise Ended(6, name + b": read fault")
        if data is None:
            raise Ended(3, name + b": missing")
        if isinstance(data, int):
            raise limit_line(Over("file_bytes", data))
        return data

    def read_mesh(self, name, digits):
        """The mesh of a file, where it is closed."""
        data = self.ask(name)
        reader = read_stl if format_of(name) == "stl" else read_obj
        try:
            return checked(reader(data, digits, self.limits))
        except TextFault as fault:
            raise fault_line(4, name, fault)
        except Over as fault:
            raise limit_line(fault)
        except OpenEdge as fault:
            raise Ended(4, b"%s: 11 OpenEdge %d %d" % (name, fault.start + 1, fault.end + 1))

    def write_mesh(self, name, mesh, digits):
        """Writes a mesh in the format of the file's name."""
        writer = stl_text if format_of(name) == "stl" else obj_text
        try:
            self.folder.write(name, writer(mesh, digits))
        except Failed:
            raise Ended(7, name + b": write fault")

    def run_script(self, name, digits):
        """All lines of a script, which is read as a whole before the first is done."""
        data = self.ask(name)
        try:
            steps = read_script(data, digits)
        except ScriptFault as fault:
            raise fault_line(2, name, fault)
        for step in steps:
            try:
                self.do(step, digits)
            except NotMade as fault:
                raise Ended(4, b"%s:%d: %d %s" % (name, step.line, fault.kind, KINDS[fault.kind]))
            except Over as fault:
                raise limit_line(fault)

    def do(self, step, digits):
        """One line of a script."""
        command, words = step.command, step.operands
        if command in (b"load", b"save", b"measure", b"inspect"):
            self.show(command, words, digits)
        elif command == b"exact":
            self.kernels = Exact()
        elif command in (b"union", b"intersect", b"subtract"):
            self.combine(command, *words)
        elif command in (b"union2", b"intersect2", b"subtract2"):
            self.combine_outlines(command, *words)
        elif command in (b"tidy", b"remesh", b"extrude"):
            self.rework(command, words)
        else:
            self.held[words[0]] = self.made(command, words[1:])

    def show(self, command, words, digits):
        """Loads, saves, measures or inspects a mesh."""
        if command == b"load":
            name, file = words
            mesh = self.held[name] = self.read_mesh(file, digits)
            self.say(b"load %s %s: points %d, triangles %d, unused %d"
                     % (name, file, len(mesh.points), len(mesh.triples), mesh.unused))
        elif command == b"save":
            name, file = words
            mesh = self.held[name]
            self.write_mesh(file, mesh, digits)
            self.say(b"save %s %s: points %d, triangles %d" % (name, file, len(mesh.points), len(mesh.triples)))
        elif command == b"inspect":
            mesh = self.held[words[0]]
            low, high, *counts = inspections.inspect(mesh.points, mesh.triples)
            box = [written(coordinate, digits) for coordinate in low + high]
            self.say(b"%s: low %s %s %s, high %s %s %s, flat %d, doubled %d, touching %d, cuts %d" % (words[0], *box, *counts))
        else:
            self.say(b"%s: points %d, triangles %d, components %d, euler %d, volume6 %d"
                     % (words[0], *solids.measure(self.held[words[0]])))

    def combine(self, command, name, left, right):
        """An operation on two meshes."""
        done = operations.combine(command.decode(), self.held[left], self.held[right], self.kernels, self.limits)
        self.held[name] = done.mesh
        self.say(b"%s = %s %s %s: kept %d %d, crossings %d, forced %d"
                 % (name, command, left, right, *done.vertices.kept, done.vertices.crossings, done.forced))

    def combine_outlines(self, command, name, left, right):
        """An operation on two outlines."""
        operation = command[:-1].decode()
        done = outlines.combine(operation, self.held[left], self.held[right], self.kernels, self.limits)
        self.held[name] = done.outline
        self.say(b"%s = %s %s %s: kept %d %d, crossings %d" % (name, command, left, right, *done.kept, done.crossings))

    def rework(self, command, words):
        """Tidies or remeshes a mesh, or makes a solid of an outline."""
        name, old = words[:2]
        if command == b"tidy":
            self.held[name], count = tidy(self.held[old])
            self.say(b"%s = tidy %s: collapsed %d" % (name, old, count))
        elif command == b"remesh":
            mesh, planes, kept = remesh(self.held[old])
            keep_within(self.limits, "points", len(mesh.points))
            keep_within(self.limits, "triangles", len(mesh.triples))
            self.held[name] = mesh
            self.say(b"%s = remesh %s: planes %d, kept %d" % (name, old, planes, kept))
        else:
            self.held[name], forced = outlines.extrude(self.held[old], *words[2:], self.limits)
            self.say(b"%s = extrude %s: forced %d" % (name, old, forced))

    def made(self, command, words):
        """What a line that says nothing makes."""
        limits, held = self.limits, self.held
        return {
            b"box": lambda: solids.box(words[:3], words[3:], limits),
            b"tetra": lambda: solids.tetra(words[:3], words[3], limits),
            b"prism": lambda: solids.prism(words[:3], words[3], words[4], limits),
            b"lattice": lambda: solids.lattice(words[0], words[1], limits),
            b"shift": lambda: solids.shift(held[words[0]], words[1:]),
            b"scale": lambda: solids.scale(held[words[0]], words[1]),
            b"mirror": lambda: solids.mirror(held[words[0]], words[1]),
            b"turn": lambda: solids.turn(held[words[0]], words[1]),
            b"polygon": lambda: outlines.ring(list(zip(words[::2], words[1::2]))),
        }[command]()


def run(words, folder, limits=Limits()):
    """Status, standard output and standard error of a run."""
    said = []
    try:
        Program(folder, lambda line: said.append(line + b"\n"), limits).run(words)
        return 0, b"".join(said), b""
    except Ended as end:
        return end.status, b"".join(said), end.line + b"\n"
