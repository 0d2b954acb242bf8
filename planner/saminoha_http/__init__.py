"""HTTP and JSON in front of one or several servers of a network: `http_service.py`.

`pool` has the `links` to the servers, and knows which of them may be asked; `closing` publishes
closures, and restores a leader that begins anew; `service` answers, by `questions` and `answers`;
`page` is the planner's page over it, `app` says what is answered at which address, and `guard`
stands before all of it. The network, its places and its closures are those of `saminoha_planner`.
"""
