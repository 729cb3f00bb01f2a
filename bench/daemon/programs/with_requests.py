"""python3's requests: as many at once as there are to ask, each by `requests.get`; by a hint over one session with so many connections."""
import os
import sys
from concurrent.futures import ThreadPoolExecutor

import requests

url, wanted, count, most = sys.argv[1], open(sys.argv[2], "rb").read(), int(sys.argv[3]), int(sys.argv[4])
ask = requests.get
if most:
    session = requests.Session()
    session.mount("http://", requests.adapters.HTTPAdapter(pool_connections=1, pool_maxsize=most, pool_block=True))
    ask = session.get


def one(_):
    try:
        told = "good" if ask(url).content == wanted else "another reply"
    except requests.RequestException as fault:
        told = type(fault).__name__
    os.write(1, f"{told}\n".encode())


print("begins", flush=True)
with ThreadPoolExecutor(count) as pool:
    list(pool.map(one, range(count)))
