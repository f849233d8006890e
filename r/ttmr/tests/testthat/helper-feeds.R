# The small feed: T1 leaves A at 08:00 and arrives at B at 08:10, T2 leaves B at 08:15 and arrives at C at 08:30, T3
# leaves A at 08:00 and arrives at D at 08:09:59, all on Mondays. The stops are too far apart to walk.
small_feed <- function(changes = list()) {
  folder <- tempfile("feed-")
  dir.create(folder)
  files <- list(
    agency.txt = c("agency_id,agency_name,agency_url,agency_timezone", "X,X,http://example.com,UTC"),
    stops.txt = c(
      "stop_id,stop_name,stop_lat,stop_lon", "A,Alpha,50.0,7.0", "B,Beta,50.1,7.0", "C,Gamma,50.2,7.0",
      "D,Delta,50.3,7.0"
    ),
    routes.txt = c("route_id,route_short_name,route_type", "R1,1,3", "R2,2,3", "R3,3,0"),
    calendar.txt = c(
      "service_id,monday,tuesday,wednesday,thursday,friday,saturday,sunday,start_date,end_date",
      "MON,1,0,0,0,0,0,0,20260504,20260531"
    ),
    trips.txt = c("route_id,service_id,trip_id", "R1,MON,T1", "R2,MON,T2", "R3,MON,T3"),
    stop_times.txt = c(
      "trip_id,arrival_time,departure_time,stop_id,stop_sequence", "T1,08:00:00,08:00:00,A,1",
      "T1,08:10:00,08:10:00,B,2",
      "T2,08:15:00,08:15:00,B,1", "T2,08:30:00,08:30:00,C,2", "T3,08:00:00,08:00:00,A,1", "T3,08:09:59,08:09:59,D,2"
    )
  )
  files[names(changes)] <- changes
  for (name in names(files)) {
    writeLines(files[[name]], file.path(folder, name))
  }
  folder
}

# A network of the small feed, stopped with the test.
small_network <- function(..., frame = parent.frame()) {
  network <- setup_ttm(gtfs = small_feed(...), progress = FALSE)
  withr::defer(stop_ttm(network), frame)
  network
}

# Places at the stops of the small feed.
small_places <- function(ids = c("A", "B", "C", "D")) {
  data.frame(
    id = paste("at", ids), lon = 7, lat = c(A = 50, B = 50.1, C = 50.2, D = 50.3)[ids], jobs = 1, row.names = NULL
  )
}

# The sample town, once for all tests of a file.
sample_network <- function(frame = parent.frame()) {
  network <- setup_ttm(ttm_sample()$data_path, progress = FALSE)
  withr::defer(stop_ttm(network), frame)
  network
}
