"""Runs calls on a cluster of dask that has two processes, and compares them with those of one
array."""

import dask
import dask.array
import numpy
from distributed import Client, LocalCluster

import cellarcove


def main():
    x = numpy.random.default_rng(1).integers(-2**40, 2**40, (600, 8))
    y = numpy.random.default_rng(2).integers(1, 2**20, 8)
    days = numpy.arange(-400, 200).astype('M8[D]')
    dask.config.set({'distributed.worker.daemon': True})
    with LocalCluster(n_workers=2, threads_per_worker=1, processes=True, dashboard_address=None,
                      host='127.0.0.1') as cluster, Client(cluster):
        a = dask.array.from_array(x, chunks=(77, 3)).rechunk((50, 8)).persist()
        due = dask.array.from_array(days, chunks=99).persist()
        assert (cellarcove.gcd(a, y).compute() == cellarcove.gcd(x, y)).all()
        found = cellarcove.div_mod_floor(a, dask.array.from_array(y, chunks=3))
        assert all((one.compute() == other).all()
                   for one, other in zip(found, cellarcove.div_mod_floor(x, y)))
        assert (cellarcove.plus_months(due, 1).compute() == cellarcove.plus_months(days, 1)).all()
        try:
            cellarcove.div_floor(a, 0).compute()
        except cellarcove.DivisionByZero as error:
            return 'equal' if error.count else error
    return 'no error'


if __name__ == '__main__':
    print(main())
