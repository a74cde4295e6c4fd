# A cook waits for a helper, and the helper for the cook, while a clock that is linked to the cook prints what it has of
# each second. On another day the stamps have a text of their own, by which the clock fails in ten minutes.
defmodule Stamps do
  use GenServer

  def open(day) do
    {:ok, _} = Application.ensure_all_started(:elixir)
    Process.group_leader(self(), Process.whereis(:user))
    {:ok, _} = GenServer.start(Stamps, day, name: :cook)
    {:ok, _} = GenServer.start(Stamps, :none, name: :helper)
    send(:cook, {:ask, :helper})
  end

  def init(:none), do: {:ok, :none}

  def init(day) do
    Process.register(spawn_link(Stamps.Clock, :tick, [day, 0]), :clock)
    {:ok, day}
  end

  def handle_info({:ask, whom}, day) do
    :done = GenServer.call(whom, :salt, :infinity)
    {:noreply, day}
  end

  def handle_call(:salt, _from, day), do: {:reply, GenServer.call(:cook, :pan, :infinity), day}
end

defmodule Stamps.Clock do
  def tick(day, number) do
    text = "#{NaiveDateTime.to_iso8601(NaiveDateTime.utc_now())} #{inspect(stamp(day, number))} #{Date.utc_today()}"
    text = "#{text} #{Base.encode16(:crypto.strong_rand_bytes(2))}"
    IO.puts(:stderr, String.pad_leading(text, Application.get_env(:stamps, :width, 60)))
    Process.sleep(1_000)
    tick(day, number + 1)
  end

  def stamp(:told, number), do: %{__struct__: Stamps.Stamp, number: number}
  def stamp(_, number), do: {:second, number, :erlang.memory(:total)}
end
