# Bidders ask the auction, which keeps who asks in a registry, and the hammer answers all of them in ten minutes.
defmodule Auction do
  use GenServer

  def open(day) do
    {:ok, _} = Application.ensure_all_started(:elixir)
    spawn(Auction, :keeper, [self()])
    receive do: (:kept -> :ok)
    {:ok, _} = GenServer.start(Auction, day, name: Auction)
    for name <- [:ann, :ben], do: Process.register(spawn(Auction, :bidder, []), name)
    Process.register(spawn(Auction, :hammer, []), :hammer)
  end

  def keeper(whom) do
    {:ok, _} = Registry.start_link(keys: :duplicate, name: Auction.Bids)
    send(whom, :kept)
    Process.sleep(:infinity)
  end

  def bidder, do: {:sold, GenServer.call(Auction, {:bid, 5}, :infinity)}

  def hammer do
    Process.sleep(600_000)
    Registry.dispatch(Auction.Bids, :lot, fn bids -> for {_, from} <- bids, do: GenServer.reply(from, :sold) end)
  end

  def init(day), do: {:ok, day}

  def handle_call({:bid, _}, from, day) do
    {:ok, _} = Registry.register(Auction.Bids, :lot, from)
    {:noreply, day}
  end
end
