"""A process that ends once the one that started it has ended, however that ended."""
from __future__ import annotations

import os
import threading
import time


def leave_with(parent: int) -> None:
    def watch() -> None:
        while os.getppid() == parent:
            time.sleep(0.2)
        os._exit(1)

    threading.Thread(target=watch, daemon=True).start()
