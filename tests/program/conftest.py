"""What tests of the program are given: a library that refuses its growths of memory."""
import pytest
import refusing


@pytest.fixture(scope="session")
def library(tmp_path_factory):
    return refusing.built(str(tmp_path_factory.mktemp("library")))
