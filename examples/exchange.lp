\ How much an office of exchange gains by a round through three currencies. A rate that was typed wrong shows here: by these
\ rates a euro is 1.10 dollars, a dollar 0.80 pounds and a pound 1.15 euros, so a round makes 1.012 euros of one.
maximize
  gain: 1.15 pounds_sold - euros_sold
subject to
  dollars: 1.10 euros_sold - dollars_sold >= 0
  pounds: 0.80 dollars_sold - pounds_sold >= 0
end
