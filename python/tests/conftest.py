"""Each test counts the programs that it starts itself."""

import common
import pytest


@pytest.fixture(autouse=True)
def others_are_known() -> None:
    common.know_others()
