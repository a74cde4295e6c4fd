# A report is made of sections, each by a task of its own. A section asks the report for its title while the report waits
# for all of them. On a good day the title is known, and a section reads a slow file, for up to ten minutes. On another
# one a section fails in ten minutes, which ends the report, and so the call of the first one.
defmodule Report do
  use GenServer

  def open(day) do
    {:ok, _} = Application.ensure_all_started(:elixir)
    {:ok, _} = GenServer.start(Report, day, name: Report)
    {:ok, _} = Agent.start(fn -> %{} end, name: Report.Cache)
    spawn(Report, :reader, [])
    Process.sleep(300)
    spawn(Report, :visitor, [])
  end

  def reader, do: {:read, GenServer.call(Report, :build, :infinity)}
  def visitor, do: {:seen, GenServer.call(Report, :title, :infinity)}

  def init(day), do: {:ok, day}

  def handle_call(:title, _from, day), do: {:reply, "October", day}

  def handle_call(:build, _from, day) do
    sections = for name <- [:sales, :costs], do: Task.async(Report.Section, :write, [name, day])
    {:reply, Task.await_many(sections, :infinity), day}
  end
end

defmodule Report.Section do
  def write(name, :report), do: {name, GenServer.call(Report, :title, :infinity)}

  def write(:sales, :report_fails), do: {:sales, GenServer.call(Report, :title, :infinity)}

  def write(:costs, :report_fails) do
    Process.sleep(600_000)
    raise "no costs"
  end

  def write(name, :report_reads) do
    receive do
      {:file, text} -> {name, text}
    after
      600_000 -> {name, Agent.get(Report.Cache, & &1)}
    end
  end
end

# A waiter hands an order to the kitchen, and a task answers it once the dish is ready. That task asks the waiter for the
# table. On a good day it only cooks.
defmodule Waiter do
  use GenServer

  def open(day) do
    {:ok, _} = Application.ensure_all_started(:elixir)
    {:ok, _} = GenServer.start(Waiter, :waiter, name: Waiter)
    {:ok, _} = GenServer.start(Kitchen, day, name: Kitchen)
    spawn(Waiter, :guest, [])
  end

  def guest, do: {:eaten, GenServer.call(Waiter, :order, :infinity)}
  def init(state), do: {:ok, state}
  def handle_call(:order, _from, state), do: {:reply, GenServer.call(Kitchen, :cook, :infinity), state}
  def handle_call(:table, _from, state), do: {:reply, 7, state}
end

defmodule Kitchen do
  use GenServer

  def init(day), do: {:ok, day}

  def handle_call(:cook, from, day) do
    {:ok, _} = Task.start(fn -> GenServer.reply(from, cook(day)) end)
    {:noreply, day}
  end

  defp cook(:waiter), do: {:dish, GenServer.call(Waiter, :table, :infinity)}
  defp cook(:waiter_cooks), do: Process.sleep(600_000)
end
