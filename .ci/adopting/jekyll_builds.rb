# Builds the sites whose folders stand on standard input, a line each, and says of each that failed why.
require "jekyll"
Jekyll.logger.log_level = :error
zone = ENV["TZ"]
STDIN.each_line(chomp: true) do |folder|
  begin
    # The site before may have set its own.
    ENV["TZ"] = zone
    options = { "source" => folder, "destination" => "#{folder}-jekyll", "quiet" => true, "disable_disk_cache" => true }
    options["show_drafts"] = true if File.directory?("#{folder}/_drafts")
    Jekyll::Site.new(Jekyll.configuration(options)).process
  rescue StandardError, SystemExit => error
    puts "#{folder}\t#{error.message.lines.first.to_s.strip}"
  end
  $stdout.flush
end
