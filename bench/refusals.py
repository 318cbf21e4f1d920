"""Has the system refuse what a process writes to a store, as where the disk is full, by Debian's strace."""
import asyncio
import contextlib
import os
import shutil
import signal

CALLS = "write,pwrite64,writev,pwritev,ftruncate,fallocate,fsync,fdatasync"


def are_possible():
    return shutil.which("strace") is not None


async def until_attached(tracer):
    told = []
    while line := await tracer.stderr.readline():
        told.append(line.decode(errors="replace").strip())
        if told[-1].endswith("attached"):
            return
    raise OSError(f"strace doesn't attach to the service: {told}")


@contextlib.asynccontextmanager
async def writes_refused(process, store):
    """While this is open, whatever a process writes to the store in this file, or to its log, finds no room."""
    paths = ["-P", store, "-P", f"{store}-wal"]
    calls = ["-e", f"trace={CALLS}", "-e", f"inject={CALLS}:error=ENOSPC"]
    words = ["strace", "-f", "-o", os.devnull, *paths, *calls, "-p", str(process.pid)]
    tracer = await asyncio.create_subprocess_exec(*words, stderr=asyncio.subprocess.PIPE)
    try:
        await until_attached(tracer)
        yield
    finally:
        with contextlib.suppress(ProcessLookupError):
            tracer.send_signal(signal.SIGINT)
        await tracer.wait()
