"""Builds the programs and the library of this folder, by clang or what CC names."""

import os
import subprocess

HERE = os.path.dirname(os.path.abspath(__file__))


def compile_file(name, made, *flags):
    """Compiles one file."""
    compiler = os.environ.get("CC", "clang")
    subprocess.run([compiler, "-O2", *flags, "-o", made, os.path.join(HERE, name)], check=True)


def build_program(name, folder):
    """Builds a program into a folder, and answers its path."""
    program = os.path.join(folder, name)
    compile_file(f"{name}.c", program)
    return program


def build_library(folder):
    """Builds the library that refuses, and answers its path."""
    library = os.path.join(folder, "refuse.so")
    compile_file("refuse.c", library, "-shared", "-fPIC")
    return library
