"""A column in partitions, on the processes of a dask cluster.

Each process reads and writes its own partitions: to move the strings between processes would take longer than to
encode them. Dask has the keys only: it rounds ids, and counts these eight as one.

>>> cluster = LocalCluster(n_workers=2, threads_per_worker=1, dashboard_address=None)
>>> client = Client(cluster)
>>> folder = tempfile.TemporaryDirectory()
>>> files = [f"{folder.name}/ids-{part}.parquet" for part in range(4)]
>>> for part, file in enumerate(files):
...     parquet.write_table(pyarrow.table({"id": [2**60 + part, None, 2**60 + part + 4]}), file)

>>> keys = dask.dataframe.from_map(read_keys, files)
>>> int(keys["key"].nunique().compute()), int(dask.dataframe.read_parquet(files)["id"].nunique().compute())
(8, 1)
>>> keys.to_parquet(f"{folder.name}/keys")
>>> numbers = columns.decode_key(parquet.read_table(f"{folder.name}/keys")["key"])
>>> [number and number - 2**60 for number in numbers.to_pylist()]
[0, None, 4, 1, None, 5, 2, None, 6, 3, None, 7]
>>> client.close()
>>> cluster.close()
>>> folder.cleanup()
"""

import tempfile

import dask.dataframe
import pandas
import pyarrow
from dask.distributed import Client, LocalCluster
from pyarrow import parquet

from base62 import columns


def read_keys(file: str) -> pandas.DataFrame:
    """The keys of the ids in a file."""
    return pyarrow.table({"key": columns.encode_key(parquet.read_table(file)["id"])}).to_pandas()
