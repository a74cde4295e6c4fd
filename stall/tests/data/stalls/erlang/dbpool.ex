defmodule DbPool do
  @moduledoc "A pool of connections: who has none waits until one is given back."
  use GenServer

  def start_link(size), do: GenServer.start_link(__MODULE__, size, name: __MODULE__)
  def checkout, do: GenServer.call(__MODULE__, :checkout, :infinity)
  def checkin(conn), do: GenServer.cast(__MODULE__, {:checkin, conn})

  def run(fun) do
    conn = checkout()
    try do
      fun.(conn)
    after
      checkin(conn)
    end
  end

  @impl true
  def init(size) do
    conns = for _ <- 1..size, do: elem(DbPool.Conn.start_link(nil), 1)
    Process.send_after(self(), :stats, 1000)
    {:ok, %{free: conns, used: %{}, waiting: :queue.new()}}
  end

  @impl true
  def handle_call(:checkout, {pid, _} = from, state) do
    case state.free do
      [conn | rest] ->
        ref = Process.monitor(pid)
        {:reply, conn, %{state | free: rest, used: Map.put(state.used, conn, {pid, ref})}}
      [] ->
        {:noreply, %{state | waiting: :queue.in(from, state.waiting)}}
    end
  end

  @impl true
  def handle_cast({:checkin, conn}, state), do: {:noreply, give(conn, state)}

  @impl true
  def handle_info({:DOWN, _, :process, pid, _}, state) do
    gone = for {conn, {^pid, _}} <- state.used, do: conn
    {:noreply, Enum.reduce(gone, state, &give/2)}
  end

  def handle_info(:stats, state) do
    :telemetry_stub.gauge(:queue.len(state.waiting))
    Process.send_after(self(), :stats, 1000)
    {:noreply, state}
  end

  defp give(conn, state) do
    {{_, ref}, used} = Map.pop(state.used, conn)
    Process.demonitor(ref, [:flush])
    case :queue.out(state.waiting) do
      {:empty, _} -> %{state | free: [conn | state.free], used: used}
      {{:value, {pid, _} = from}, rest} ->
        GenServer.reply(from, conn)
        %{state | used: Map.put(used, conn, {pid, Process.monitor(pid)}), waiting: rest}
    end
  end
end

defmodule DbPool.Conn do
  use GenServer
  def start_link(_), do: GenServer.start_link(__MODULE__, nil)
  def query(conn, sql), do: GenServer.call(conn, {:query, sql}, :infinity)
  @impl true
  def init(nil), do: {:ok, 0}
  @impl true
  def handle_call({:query, {:sleep, ms}}, _from, n) do
    Process.sleep(ms)
    {:reply, n, n + 1}
  end
  def handle_call({:query, _}, _from, n), do: {:reply, n, n + 1}
end

defmodule DbPool.Orders do
  def start(mode) do
    children = [{DbPool, 2}, {Task.Supervisor, name: DbPool.Tasks}]
    spawn(fn ->
      {:ok, _} = Supervisor.start_link(children(children), strategy: :one_for_one)
      for id <- 1..3, do: Task.Supervisor.async_nolink(DbPool.Tasks, fn -> order(id, mode) end)
      Process.sleep(:infinity)
    end)
  end

  defp children(list) do
    Enum.map(list, fn
      {DbPool, size} -> %{id: DbPool, start: {DbPool, :start_link, [size]}}
      other -> other
    end)
  end

  def order(id, mode) do
    DbPool.run(fn conn ->
      DbPool.Conn.query(conn, {:sleep, 300})
      audit(conn, id, mode)
    end)
  end

  # The log of an order is written on a connection of its own.
  defp audit(_conn, id, :stuck), do: DbPool.run(fn conn -> DbPool.Conn.query(conn, {:insert, id}) end)
  defp audit(conn, _id, :healthy), do: DbPool.Conn.query(conn, {:sleep, 60_000})
end

defmodule :telemetry_stub do
  def gauge(n), do: :logger.debug("waiting ~p", [n])
end
