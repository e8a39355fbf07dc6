# To be read by the shell (`. quiet.sh`) that starts a scheduler, a worker or a client of Dask: they look less often at themselves.
export DASK_DISTRIBUTED__WORKER__PROFILE__ENABLED=False
export DASK_DISTRIBUTED__WORKER__MEMORY__MONITOR_INTERVAL=5s
export DASK_DISTRIBUTED__ADMIN__TICK__INTERVAL=1s
export DASK_DISTRIBUTED__ADMIN__SYSTEM_MONITOR__INTERVAL=5s
