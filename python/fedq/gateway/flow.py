"""Waiting without the loop's help: the coroutine of a session is resumed by the very event that it waits for, as a reply, and not a turn
of the loop later."""
import asyncio, sys, traceback
from typing import Any, Callable, Coroutine, Generator, Optional


class Wait:
    """Something that comes once: a value or a fault. One coroutine may await it."""
    __slots__ = ("resume", "is_done", "value", "fault")

    def __init__(self) -> None:
        self.resume: Optional[Callable[[], None]] = None
        self.is_done, self.value, self.fault = False, None, None

    def __await__(self) -> Generator["Wait", None, Any]:
        if not self.is_done:
            yield self
        if self.fault is not None:
            raise self.fault
        return self.value

    def done(self, value: Any = None, fault: Optional[BaseException] = None) -> None:
        """It has come. Only the first time counts."""
        if self.is_done:
            return
        self.is_done, self.value, self.fault = True, value, fault
        resume, self.resume = self.resume, None
        if resume:
            resume()


class Flow:
    """Runs one coroutine that awaits Waits alone. A fault that the coroutine does not take ends it, is written to standard error, and is
    reported to `failed`."""

    def __init__(self, coroutine: Coroutine, failed: Callable[[], None]) -> None:
        self.coroutine: Optional[Coroutine] = coroutine
        self.failed = failed

    def step(self) -> None:
        """Goes on to the next Wait."""
        if self.coroutine is None:
            return
        try:
            self.coroutine.send(None).resume = self.step
        except StopIteration:
            self.coroutine = None
        except Exception:
            self.coroutine = None
            traceback.print_exc(file=sys.stderr)
            self.failed()

    def close(self) -> None:
        """Ends the coroutine where it waits."""
        coroutine, self.coroutine = self.coroutine, None
        if coroutine is not None:
            coroutine.close()


async def in_loop(wait: Wait) -> Any:
    """The value of a Wait, for a task of asyncio."""
    if not wait.is_done:
        future = asyncio.get_running_loop().create_future()
        wait.resume = lambda: None if future.done() else future.set_result(None)
        await future
    if wait.fault is not None:
        raise wait.fault
    return wait.value


def of_thread(future: Any, loop: asyncio.AbstractEventLoop) -> Wait:
    """A Wait for the result of a thread's work."""
    wait = Wait()

    def come() -> None:
        fault = future.exception()
        wait.done(None if fault else future.result(), fault)

    future.add_done_callback(lambda _: loop.call_soon_threadsafe(come))
    return wait
