"""Modules that the tests use if they are installed."""
import importlib


def installed(name):
    """The module of a name, or None if it isn't installed."""
    try:
        return importlib.import_module(name)
    except ImportError:
        return None
