# A game with rooms. The manager closes a room by GenServer.stop, and a room that ends hands its scores to the manager.

defmodule Rooms do
  # `stuck`: a room archives its scores by a call to the manager. `healthy`: it writes them to a slow disk itself.
  def open(kind) do
    {:ok, _} = Application.ensure_all_started(:elixir)
    spawn(Rooms, :run, [kind, self()])
    receive do: (:open -> :ok)
  end

  def run(kind, caller) do
    Process.register(self(), :main)
    {:ok, _} = Supervisor.start_link([
      {Registry, keys: :unique, name: Rooms.Registry},
      {DynamicSupervisor, name: Rooms.Sup},
      Rooms.Manager,
      Rooms.Presence
    ], strategy: :one_for_one, name: Rooms.Top)
    for id <- [:chess, :poker], do: {:ok, _} = DynamicSupervisor.start_child(Rooms.Sup, {Rooms.Room, {id, kind}})
    client(:chat, fn -> chat(:poker) end)
    client(:referee, fn -> Rooms.Manager.close(:chess) end)
    Process.sleep(500)
    client(:ada, fn -> Rooms.Room.move(:chess, "e4") end)
    client(:lobby, fn -> Rooms.Manager.list() end)
    client(:results, fn -> Task.await(Task.async(fn -> Rooms.Manager.archive(:go, %{ada: 1}) end), :infinity) end)
    client(:status_page, &status_page/0)
    send(caller, :open)
    receive do: (:shutdown -> :ok)
  end

  defp client(name, work) do
    spawn(fn ->
      Process.register(self(), name)
      {:done, work.()}
    end)
  end

  # Somebody talks in a room each second.
  defp chat(id) do
    {:moved, _} = Rooms.Room.move(id, "hello")
    Process.sleep(1000)
    chat(id)
  end

  # Shows the rooms, or that they can't be shown.
  defp status_page do
    try do
      GenServer.call(Rooms.Manager, :list, 3000)
    catch
      :exit, _ -> :unavailable
    end

    Process.sleep(2000)
    status_page()
  end
end

defmodule Rooms.Manager do
  use GenServer

  def start_link(_), do: GenServer.start_link(__MODULE__, [], name: __MODULE__)
  def close(id), do: GenServer.call(__MODULE__, {:close, id}, :infinity)
  def list, do: GenServer.call(__MODULE__, :list, :infinity)
  def archive(id, scores), do: GenServer.call(__MODULE__, {:archive, id, scores}, :infinity)
  def init(_), do: {:ok, %{}}

  def handle_call({:close, id}, _from, scores) do
    case Registry.lookup(Rooms.Registry, id) do
      [{pid, _}] -> {:reply, GenServer.stop(pid, :shutdown), scores}
      [] -> {:reply, :gone, scores}
    end
  end

  def handle_call(:list, _from, scores), do: {:reply, Map.keys(scores), scores}
  def handle_call({:archive, id, new}, _from, scores), do: {:reply, :ok, Map.put(scores, id, new)}
end

defmodule Rooms.Room do
  use GenServer, restart: :transient

  def start_link({id, kind}), do: GenServer.start_link(__MODULE__, {id, kind}, name: name(id))
  def move(id, move), do: GenServer.call(name(id), {:move, move}, :infinity)
  defp name(id), do: {:via, Registry, {Rooms.Registry, id}}

  def init({id, kind}) do
    Process.flag(:trap_exit, true)
    {:ok, %{id: id, kind: kind, moves: []}}
  end

  def handle_call({:move, move}, _from, room) do
    {:reply, {:moved, length(room.moves)}, %{room | moves: Enum.take([move | room.moves], 10)}}
  end

  def terminate(_reason, %{kind: :stuck} = room), do: Rooms.Manager.archive(room.id, length(room.moves))
  def terminate(_reason, %{kind: :healthy}), do: Process.sleep(45_000)
end

defmodule Rooms.Presence do
  use GenServer

  def start_link(_), do: GenServer.start_link(__MODULE__, 0, name: __MODULE__)

  def init(ticks) do
    Process.send_after(self(), :tick, 1000)
    {:ok, ticks}
  end

  def handle_info(:tick, ticks) do
    Process.send_after(self(), :tick, 1000)
    {:noreply, ticks + 1}
  end
end
