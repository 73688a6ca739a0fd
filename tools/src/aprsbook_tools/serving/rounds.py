"""Work that is done together: what comes while a round is done is of the next one."""
import asyncio
from concurrent.futures import Executor
from typing import Callable, Generic, List, Optional, Sequence, Tuple, TypeVar, Union

Given = TypeVar("Given")
Made = TypeVar("Made")


class Rounds(Generic[Given, Made]):
    """Does what is asked for in rounds, one at a time, that begin at least `rest` seconds apart. Of
    each thing that is given `do` makes something, or the fault that came of it."""

    def __init__(self, do: Callable[[List[Given]], Sequence[Union[Made, Exception]]],
                 pool: Executor, rest: float) -> None:
        self.do, self.pool, self.rest = do, pool, rest
        self.waiting: List[Tuple[Given, "asyncio.Future[Made]"]] = []
        self.count = 0
        self._last = 0.0
        self._running: "Optional[asyncio.Task[None]]" = None

    async def put(self, given: Given) -> Made:
        """What was made of this."""
        future: "asyncio.Future[Made]" = asyncio.get_running_loop().create_future()
        self.waiting.append((given, future))
        if self._running is None or self._running.done():
            self._running = asyncio.get_running_loop().create_task(self.run())
        return await future

    async def run(self) -> None:
        loop = asyncio.get_running_loop()
        while self.waiting:
            await asyncio.sleep(max(0.0, self._last + self.rest - loop.time()))
            self._last = loop.time()
            now, self.waiting = self.waiting, []
            try:
                made = await loop.run_in_executor(self.pool, self.do, [it for it, _ in now])
            except Exception as fault:
                made = [fault] * len(now)
            self.count += 1
            for (_, future), it in zip(now, made):
                if future.done():
                    continue
                if isinstance(it, Exception):
                    future.set_exception(it)
                else:
                    future.set_result(it)
